#!/usr/bin/env bash
# try.sh calls this inside its booted root: with `before`, before the lines of OPERATING make an office, and with `after`, after that.
# `after` checks the front's rules and a kill, ports, TLS and the second office, upgrades and removes the package, makes backups,
# purges the package, and moves the office to a machine that has never had one.
set -uo pipefail
office=/var/lib/record-office/office.db
copies=/var/backups/record-office
today=$(date +%F)
readers=http://127.0.0.1:8080
desk=http://127.0.0.1:8081
units=(record-office record-office-queue record-office-readers record-office-desk record-office-try record-office-my)
timers=(record-office-backup.timer record-office-probe.timer record-office-status.timer)
harbour=http://127.0.0.1:8180
harbour_units=(record-office@harbour record-office-queue@harbour record-office-readers@harbour record-office-desk@harbour record-office-try@harbour record-office-my@harbour)
harbour_timers=(record-office-backup@harbour.timer record-office-probe@harbour.timer record-office-status@harbour.timer)

. "$(dirname "$0")/try_checks.sh"

# serve SITE: nginx serves this site for the first office, and its workers of before have gone
serve() {
    local worker workers
    workers=$(cat "/proc/$(cat /run/nginx.pid)/task/"*/children)
    ln -sfn "../sites-available/$1" /etc/nginx/sites-enabled/record-office
    nginx -t -q && systemctl reload nginx
    for worker in $workers; do waits sh -c "! kill -0 $worker"; done
}

before() {
    for _ in $(seq 20); do
        systemctl is-system-running 2>/dev/null | grep -q 'running\|degraded' && break
        sleep 1
    done
    same 'without an office no unit runs' "$(systemctl is-active "${units[@]}" | sort | uniq -c | xargs)" '6 inactive'
    same 'all are enabled' "$(systemctl is-enabled "${units[@]}" "${timers[@]}" | sort | uniq -c | xargs)" '9 enabled'
    # shellcheck disable=SC2016  # the shell that is called expands it
    is 'systemd finds nothing wrong with the units' sh -c \
        'test -z "$(cd /lib/systemd/system && systemd-analyze verify --man=no record-office*[!@].service record-office*[!@].timer record-office-alarm@x.service 2>&1 | tee /dev/stderr)"'
    is 'the manual page is there' test -s /usr/share/man/man1/record_office.1.gz -o -e /etc/dpkg/dpkg.cfg.d/excludes
}

# The ETag of the desk's first page
etag() { curl -s -o /dev/null -D - -u desk:quiet-paper $desk/ | grep -i '^etag'; }

# What the packaged OPERATING links to is in the package.
links() {
    local file folder=/usr/share/doc/record-office
    for file in $(zcat $folder/OPERATING.md.gz | grep -o '](\([^)#]*\)[^)]*)' | sed 's/^](//; s/[)#].*//' | sort -u); do
        is "OPERATING's link to $file" test -e "$folder/$file" -o -e "$folder/$file.gz"
    done
}

# Another port, by the site; and the site with TLS, with the certificate of OPERATING.
sites() {
    local site=/etc/nginx/sites-available/record-office ask='curl -s --cacert /etc/record-office/certificate.pem --connect-to ::localhost:'
    sed 's/8080/8070/' $site >$site-moved
    sed -i 's/8081/8071/' /etc/record-office/desk-nginx.conf
    systemctl restart record-office-desk
    serve record-office-moved
    same 'readers and staff at other ports' "$(status http://127.0.0.1:8070/public/fonds) $(status -u desk:quiet-paper -d '{}' \
        -H 'Origin: http://localhost:8071' http://localhost:8071/desk/seat) $(status $readers/public/fonds) $(status $desk/desk/issued)" '200 400 000 000'
    rm $site-moved
    cp /etc/record-office/desk-tls.conf /etc/record-office/desk-nginx.conf
    systemctl restart record-office-desk
    mkdir -p /var/www/html/.well-known/acme-challenge && echo token >/var/www/html/.well-known/acme-challenge/proof
    serve record-office-tls
    same 'a certificate can be renewed over port 80' "$(curl -s --connect-to ::localhost: http://archive.example.org/.well-known/acme-challenge/proof)" token
    same 'HTTP/2 is spoken' "$($ask -o /dev/null -w '%{http_version}' https://archive.example.org/)" 2
    same 'without TLS readers are sent on' "$($ask -o /dev/null -w '%{http_code} %{redirect_url}' http://archive.example.org/)" '301 https://archive.example.org/'
    same 'a browser keeps to TLS' "$($ask -o /dev/null -D - https://archive.example.org/ | grep -o 'strict.*=[0-9]*')" 'strict-transport-security: max-age=31536000'
    same 'of an address the network alone is logged, at port 80 too' "$(grep -cv '^\(127\.0\.0\|0\.0\.0\)\.0 ' /var/log/nginx/access.log)" 0
    same 'the cookie of My orders is for TLS alone' "$($ask -o /dev/null -D - "https://archive.example.org/my/$($ask -u desk:quiet-paper \
        https://desk.example.org:8443/my/1 | sed 's#.*/my/\([^"]*\)".*#\1#')" | grep -ci '^set-cookie: my=1-.*; secure')" 1
    is 'another name gets no certificate' sh -c "$ask -S -k https://other.example.org:8443/ 2>&1 | grep 'unrecognized name'"
    cp /usr/share/record-office/own/desk-nginx.conf /etc/record-office/
    systemctl restart record-office-desk
    serve record-office
}

# may STATUS: how somebody who was named at the shell imports, and sees who was here
may() {
    [ "$(status -u bea:quiet-ink --data-binary @/root/archives.csv $desk/desk/import/archives) $(status -u bea:quiet-ink $desk/lists/visits.csv)" = "$1" ]
}

# The parts of the staff, which the desk's nginx reads when it begins and when it is reloaded.
staff() {
    local ask='-u bea:quiet-ink'
    echo quiet-ink | record-office-staff bea --part counter
    is 'the counter may not import, nor see who was here' waits may '403 403'
    # shellcheck disable=SC2086
    same 'it opens a day, and gives a ticket' "$(status $ask -d '{"day":"2024-03-02"}' $desk/desk/day) $(curl -s $ask -d \
        '{"name":"Gil","until":"2030-12-31"}' $desk/desk/register | tr -d 0-9)" '200 {"ticket":}'
    # shellcheck disable=SC2086
    same 'the pages tell the day' "$(curl -s $ask $desk/open-day.json)" '{"day":"2024-03-02"}'
    systemctl restart record-office-desk
    is 'begun again, the desk refuses as much' waits may '403 403'
    record-office-staff bea --part archivist
    is 'an archivist imports' waits may '200 403'
    record-office-staff bea --remove
    is 'who was removed may do nothing' waits may '401 401'
}

# The second office, which the lines of OPERATING added.
second() {
    local before settings=/etc/record-office/harbour second_copies=/var/backups/record-office-harbour
    same 'the units of the second office run' "$(systemctl is-active "${harbour_units[@]}" "${harbour_timers[@]}" | sort | uniq -c | xargs)" '9 active'
    # shellcheck disable=SC2016  # the shell that is called expands it
    is 'systemd finds nothing wrong with them' sh -c 'test -z "$(systemd-analyze verify --man=no record-office@harbour.service \
        record-office-queue@harbour.service record-office-readers@harbour.service record-office-backup@harbour.timer record-office-probe@harbour.timer \
        record-office-status@harbour.timer 2>&1 | tee /dev/stderr)"'
    same 'each office answers for itself' "$(curl -s $harbour/public/fonds)" '1 GB 0998 HUL [Fonds] Hull Dock Company'
    same 'each has a password of its own' "$(status -u desk:quiet-water http://127.0.0.1:8181/desk/issued) \
$(status -u desk:quiet-paper http://127.0.0.1:8181/desk/issued) $(status -u desk:quiet-water $desk/desk/issued)" '200 401 401'
    is 'its units are found' sh -c "for i in \$(seq 90); do curl -s '$harbour/public/search?q=minutes' | grep -q 'GB 0998' && exit 0; sleep 1; done; exit 1"
    same 'each has secrets of its own' "$(curl -s -u desk:quiet-water http://127.0.0.1:8181/my/1 | grep -c "$(curl -s -u desk:quiet-paper $desk/my/1 | grep -o '1-[a-z0-9]*')")" 0
    sed -i 's/"name": .*/"name": "Harbour office",/' $settings/office.json
    systemctl restart record-office-readers@harbour
    is 'it has words of its own' sh -c "curl -s $harbour/ | grep 'Harbour office' && ! curl -s $readers/ | grep 'Harbour office'"
    for wrong in 'harbour 8280' 'readers 8280' 'Other 8280' 'other 8180' 'other 8170' 'other 8068' 'other 80' 'other 70000' 'other'; do
        is "record-office-add $wrong is refused" sh -c "! record-office-add $wrong && test ! -e /etc/record-office/other"
    done
    systemctl stop record-office
    same 'it does without the first one' "$(status $harbour/public/fonds) $(status -m 2 $readers/public/fonds)" '200 000'
    systemctl start record-office
    before=$(stat -c %y "$copies/office-$today.db")
    is 'its backup' systemctl start record-office-backup@harbour
    is 'is its own' sh -c "test -s $second_copies/office-$today.db && cmp -s $second_copies/office-$today.db $copies/office-$today.db; test \$? = 1"
    same 'and leaves those of the first as they were' "$(stat -c %y "$copies/office-$today.db")" "$before"
    is 'so are its lists' sh -c "curl -s -u desk:quiet-water http://127.0.0.1:8181/lists/drafts.csv | grep 'GB 0998 HUL/3'"
    curl -s -u desk:quiet-water -d '{"name":"Cid","until":"2030-12-31"}' http://127.0.0.1:8181/desk/register >/tmp/out
    is 'a restore of it' record-office-restore --office harbour "$second_copies/office-$today.db"
    same 'goes back in it alone' "$(status -u desk:quiet-water http://127.0.0.1:8181/desk/readers/1) $(status $readers/public/fonds)" '404 200'
    is 'of a name that is not there it is refused' sh -c "! record-office-restore --office other '$second_copies/office-$today.db'"
}

# What a copy tells: query SQL
query() { runuser -u record-office -- sqlite3 "$copies/office-$today.db" "$1"; }

# fails WHAT TEXT: the backup fails, its unit is failed, and its journal has this text
fails() {
    systemctl start record-office-backup 2>/dev/null
    same "$1: the unit" "$(systemctl is-failed record-office-backup)" failed
    is "$1: the journal" sh -c "journalctl --no-pager -o cat -u record-office-backup -n 20 | grep -q '$2'"
    systemctl reset-failed record-office-backup
}

# busy WHAT ARGUMENT ..: four clients ask for twenty seconds; a line for each answer with its status and how long it took
busy() {
    local what=$1 end=$((SECONDS + 20)) _
    for _ in 1 2 3 4; do
        (while [ $SECONDS -lt $end ]; do curl -s -o /dev/null -m 200 -w "$what %{http_code} %{time_total}\n" "${@:2}"; sleep 0.1; done) &
    done
    wait
}

# The backup: by its timer beside a busy front, what it keeps, elsewhere, how it fails; and back to a copy.
backups() {
    local before pid timer=/run/systemd/system/record-office-backup.timer.d/soon.conf
    same 'the timer is enabled and runs' "$(systemctl is-enabled record-office-backup.timer) $(systemctl is-active record-office-backup.timer)" 'enabled active'
    [ -d $copies ] || install -d -o record-office -g record-office -m 700 $copies
    for day in $(seq 0 365); do date -d "2020-01-01 $day days" "+$copies/office-%F.db"; done | xargs touch
    before=$(curl -s -u desk:quiet-paper $desk/desk/readers/1 | grep -c ticket)
    (busy questions $readers/public/units/1 & busy registrations -u desk:quiet-paper -d '{"name":"Busy","until":"2030-12-31"}' $desk/desk/register; wait) >/tmp/busy &
    pid=$!
    sleep 3
    mkdir "${timer%/*}"
    printf '[Timer]\nOnCalendar=\nOnActiveSec=1\nAccuracySec=1\n' >$timer
    systemctl daemon-reload && systemctl restart record-office-backup.timer
    wait $pid
    sort /tmp/busy | cut -d' ' -f1,2 | uniq -c
    is 'the timer made a backup' test -s "$copies/office-$today.db"
    same 'beside it each question and each command was answered' "$(grep -v ' 200 ' /tmp/busy)" ''
    rm -r "${timer%/*}" && systemctl daemon-reload && systemctl restart record-office-backup.timer
    same 'what is kept of a year' "$(find $copies -name 'office-*.db' ! -name "*$today*" -printf '%f\n' | sort | sed 's/office-2020-//; s/.db//' | xargs)" \
        '02-29 03-31 04-30 05-31 06-30 07-31 08-31 09-30 10-31 11-30 12-20 12-26 12-27 12-28 12-29 12-30 12-31'

    mkdir /srv/other
    # shellcheck disable=SC2016  # the backup expands it
    printf 'COPY_FOLDER=/srv/other\nCOPY_COMMAND='"'"'cp "$1" /srv/by-command.db'"'\n" >/etc/record-office/backup.conf
    is 'a backup to another folder and by a command' systemctl start record-office-backup
    same 'each reader who got a ticket is in it' "$(query 'SELECT count(*) FROM reader')" $((before + $(grep -c '^registrations 200' /tmp/busy)))
    is 'the copies are the same' cmp "$copies/office-$today.db" "/srv/other/office-$today.db"
    is 'by the command too' cmp "$copies/office-$today.db" /srv/by-command.db
    same 'the staff see the lists' "$(status -u desk:quiet-paper $desk/lists/) $(status $desk/lists/drafts.csv) $(status $readers/lists/)" '200 401 404'
    is 'of that night' sh -c "curl -s -u desk:quiet-paper $desk/lists/drafts.html | grep -q 'As of the copy of $today'"
    same 'as pages and as CSV' "$(curl -s -o /dev/null -w '%{content_type}' -u desk:quiet-paper $desk/lists/drafts.csv)" 'text/csv; charset=utf-8'
    echo 'COPY_FOLDER=/srv/none' >/etc/record-office/backup.conf
    fails 'a folder that is not there' 'there is no folder /srv/none'
    echo 'COPY_COMMAND=false' >/etc/record-office/backup.conf
    fails 'a command that fails' 'the command for another copy failed: false'
    cp /usr/share/record-office/own/backup.conf /etc/record-office/backup.conf

    printf '#!/bin/sh\nsleep 60\n' >/usr/local/sbin/sqlite3 && chmod 755 /usr/local/sbin/sqlite3
    systemctl start --no-block record-office-backup
    for _ in $(seq 50); do systemctl is-active -q record-office || break; sleep 0.1; done
    systemctl kill -s KILL record-office-backup
    rm /usr/local/sbin/sqlite3
    sleep 2
    same 'after a backup that was killed readers get an answer' "$(status $readers/public/fonds)" 200
    systemctl reset-failed record-office-backup

    systemctl stop record-office
    runuser -u record-office -- sqlite3 $office 'UPDATE office SET seats = 0'
    systemctl start record-office
    cp "$copies/office-$today.db" /root/copy.db
    fails 'an office that is not sound' 'not sound 1'
    is 'the copy of before stays' cmp "$copies/office-$today.db" /root/copy.db
    is 'no old log would be left' test -e $office-wal
    is 'the restore of a file that is no office is refused' sh -c '! record-office-restore /etc/hostname'
    is 'a restore' record-office-restore --yes /root/copy.db
    same 'after it readers get an answer' "$(status $readers/public/fonds)" 200
    same 'the office is its user'"'"'s' "$(stat -c '%U %a' $office)" 'record-office 600'
    is 'what stood there is kept with its log' sh -c "ls ${office%/*}/replaced-*/office.db-wal"
    rm -r "${office%/*}"/replaced-*

    systemctl stop record-office
    is 'a backup of an office that is stopped' systemctl start record-office-backup
    is 'a restore of it' record-office-restore "$copies/office-$today.db"
    same 'it stays stopped' "$(systemctl is-active record-office)" inactive
    rm -r $office* "${office%/*}"/replaced-*
    is 'a restore where there is no office yet, as on another machine' record-office-restore /root/copy.db
    systemctl start record-office
}

# An upgrade whose files have all changed, after the operator has edited the files that are the operator's; removed, and installed again.
upgrades() {
    local tag file
    local edited=(/etc/nginx/sites-available/{record-office,record-office-tls} /etc/record-office/backup.conf)
    for file in "${edited[@]}"; do echo '# our own' >>"$file"; done
    sed 's/rate=50r/rate=40r/' /etc/record-office/common.conf >/etc/record-office/our-common.conf
    sed -i 's/common.conf/our-common.conf/' /etc/nginx/sites-available/record-office
    is 'a limit of our own' nginx -t -q
    systemctl stop record-office
    tag=$(etag)
    is 'an upgrade by apt asks nothing' sh -c 'apt-get install -qq -y /root/next.deb </dev/null'
    is 'a page that has changed, but not its size, has another ETag' test "$tag" != "$(etag)"
    same 'what was stopped stays stopped' "$(systemctl is-active record-office record-office-queue record-office-backup.timer | xargs)" 'inactive active active'
    is 'what was edited stays' grep -c '^# our own' "${edited[@]}"
    is 'the rest is new' grep '^# of the next version' /etc/record-office/readers.conf /usr/share/record-office/site
    is 'also for the second office' grep '^# of the next version' /etc/record-office/harbour/readers.conf
    is 'whose own files stay' grep 'Harbour office' /etc/record-office/harbour/office.json
    systemctl start record-office
    same 'after it readers get an answer' "$(status $readers/public/fonds) $(status $harbour/public/fonds)" '200 200'
    is 'the same once more' sh -c 'dpkg -i /root/next.deb </dev/null'
    same 'after that too' "$(status $readers/public/fonds)" 200

    is 'removal' dpkg --remove record-office
    same 'nothing runs any more' "$(systemctl is-active "${units[@]}" "${timers[@]}" "${harbour_units[@]}" "${harbour_timers[@]}" | sort | uniq -c | xargs)" '18 inactive'
    is 'nginx goes on' nginx -t -q
    same 'nothing answers readers' "$(status $readers/public/fonds) $(status $harbour/public/fonds)" '000 000'
    is 'installed again' sh -c 'dpkg -i /root/next.deb </dev/null'
    is 'readers get an answer as before, once nginx has read its sites' waits answered $readers/public/fonds $harbour/public/fonds
    same 'and the desk' "$(status -u desk:quiet-paper $desk/desk/issued)" 200

    chown root $office && systemctl restart record-office
    same 'an office of root is not answered for' "$(status -m 3 $readers/public/fonds)" 000
    chown record-office $office && systemctl restart record-office
    same 'that of its user is' "$(status $readers/public/fonds)" 200
}

after() {
    same 'readers get an answer' "$(status $readers/public/fonds)" 200
    same 'and a finding aid' "$(status $readers/public/aid/1)" 200
    same 'the desk asks for a password' "$(status $desk/desk/issued)" 401
    same 'the desk takes it' "$(status -u desk:quiet-paper $desk/desk/issued)" 200
    same 'another name is turned away' "$(status -H 'Host: other.example.org' -u desk:quiet-paper $desk/desk/issued)" 421
    same 'another site is turned away' "$(status -H 'Origin: http://other.example.org' -u desk:quiet-paper -d '' $desk/desk/run)" 403
    same 'readers do not reach the desk' "$(status $readers/desk/issued)" 404
    is 'a file is looked at' record-office-look /root/archives.csv
    is 'by somebody who stops reading early, too' sh -c 'record-office-look /root/archives.csv 2>/tmp/said | head -c 0; test ! -s /tmp/said'
    same 'an import at the desk' "$(status -u desk:quiet-paper --data-binary @/root/archives.csv $desk/desk/import/archives)" 200
    is 'an archive of the second file is told' sh -c "curl -s $readers/public/fonds | grep -q 'Hull Dock Company'"
    is 'and its units are found, within two rounds' sh -c \
        "for i in \$(seq 150); do curl -s '$readers/public/search?q=kingsford' | grep -q Kingsford && exit 0; sleep 1; done; exit 1"
    same 'the office is its user'"'"'s alone, by its folder' "$(stat -c '%U %a' /var/lib/record-office)" 'record-office 700'

    restarts=$(systemctl show -p NRestarts --value record-office)
    systemctl kill -s KILL record-office
    same 'a reader who asks while the program is begun again' "$(status $readers/public/fonds)" 200
    is 'it was begun again' test "$(systemctl show -p NRestarts --value record-office)" -gt "$restarts"
    same 'no process may get new rights' "$(grep -h NoNewPrivs "/proc/$(systemctl show -p MainPID --value record-office)/status" | cut -f2)" 1

    same 'each end of the program was asked for' "$(journalctl --no-pager -o cat -u record-office | grep -c '^the program ended: killed KILL')" \
        "$(journalctl --no-pager -o cat -u record-office | grep -c '^the program ended: ')"

    links
    staff
    sites
    second
    upgrades
    backups
    bash /root/try_back.sh
    bash /root/try_alarms.sh
    bash /root/try_registers.sh
    bash /root/try_limits.sh
    packs
    purges
    moves
    purges
    echo 'to the end'
}

# What OPERATING says to bring to another machine, and what the office says before.
packs() {
    systemctl start record-office-backup
    mkdir /root/moved
    cp "$copies/office-$today.db" /etc/record-office/{staff,office.json,orders-from.conf} /root/moved
    answers >/root/moved/answers
    systemctl stop record-office
    is 'check by the office'"'"'s user' runuser -u record-office -- record_office check --store "$office"
}

# What the office tells readers and staff.
answers() {
    curl -s $readers/public/fonds $readers/public/aid/1
    for question in readers/1 readers/2 queue/1 issued; do curl -s -u desk:quiet-paper "$desk/desk/$question"; done
}

purges() {
    rm -rf /var/www/html/.well-known
    rm -f /etc/record-office/*.pem /etc/record-office/our-common.conf /etc/nginx/sites-available/record-office-tls
    is 'purge' dpkg --purge record-office
    is 'the office and its copies stay' sh -c "test -s $office && ls $copies/office-$today.db"
    same 'nothing else stays' "$(find / -xdev -name '*record-office*' ! -path '/proc/*' ! -path '/root/*' ! -path '/var/lib/record-office*' \
        ! -path '/var/backups/*' ! -path '/var/log/*' ! -path '/tmp/*')" ''
    is 'nginx still goes on' nginx -t -q
    rm -rf /var/lib/record-office* /var/backups/record-office*
}

# Another machine, by what OPERATING says: nothing of the office is here any more.
moves() {
    is 'the package on another machine' dpkg -i /root/record-office.deb
    cp /root/moved/{staff,office.json,orders-from.conf} /etc/record-office/
    chgrp www-data /etc/record-office/staff
    is 'the office is restored there' record-office-restore "/root/moved/office-$today.db"
    ln -s ../sites-available/record-office /etc/nginx/sites-enabled/
    nginx -t -q && systemctl reload-or-restart nginx
    systemctl enable --quiet --now "${units[@]}" "${timers[@]}"
    same 'it answers' "$(status -m 60 $readers/public/fonds)" 200
    same 'as it did on the first' "$(answers)" "$(cat /root/moved/answers)"
    systemctl start record-office-backup
}

"$@"
