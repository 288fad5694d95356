# Makes of a unit of the office the template unit of added ones, whose names systemd puts in place of %i.
s/^Description=Record office:/Description=Record office %i:/
s#/var/lib/record-office\>#&-%i#g
s#/etc/record-office/#&%i/#
s#/etc/nginx/sites-enabled/record-office#&-%i#
s/record_office_strangers/record_office_%i_strangers/
s#/run/record-office-\(queue\|readers\|desk\|try\|my\)\>#&-%i#g
s#/var/backups/record-office\>#&-%i#g
s/^User=record-office-pages$/&-%i/
s/^\(State\|Cache\|Runtime\)Directory=.*/&-%i/
s/\<\(record-office\(-[a-z]*\)\?\)\.\(service\|timer\)\>/\1@%i.\3/g
s/^ExecStart=.*-\(backup\|status\)\>.*/& --office %i/
# record-office-add gives the port of the program to the unit, and lets it listen there.
s/--port 8090/--port ${PORT}/
/^SocketBindAllow=/d
