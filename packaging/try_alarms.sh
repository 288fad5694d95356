#!/usr/bin/env bash
# try.sh calls this inside its booted root once there is an office: what happens when something breaks, and who is told.
set -uo pipefail
office=/var/lib/record-office/office.db
copies=/var/backups/record-office
copy=$copies/office-$(date +%F).db
readers=http://127.0.0.1:8080
told=/root/told
conf=/etc/record-office/alarm.conf

. "$(dirname "$0")/try_checks.sh"

has_failed() { systemctl is-failed "$1"; }
is_told() { grep -sq "$1" $told; }
is_answered() { answered $readers/public/fonds; }
journal() { journalctl --no-pager -q -o cat -u "$1" --since "$since"; }
begins() {
    since=$(date '+%F %T')
    sleep 1
    rm -f $told /run/record-office/told-*
}

# The line of record-office-status about this
line() { record-office-status | grep "^[A-Z]*: $1: "; }

# Until the operator names a command, root gets a mail, if there is a command for it; else the status is yellow.
by_mail() {
    local mail unit=record-office-status.service
    mail=$(command -v mail) && mv "$mail" /root/mail.away
    is 'without a command for mail a test says that nobody is told' sh -c '! record-office-alarm --test && grep -q "nobody is told" /tmp/out'
    same 'and the status is yellow' "$(line alarm | cut -d: -f1)" WARNING
    printf '#!/bin/sh\n(echo "$@"; cat) >/root/mailed\n' >/usr/local/bin/mail && chmod 755 /usr/local/bin/mail
    is 'with one a test' record-office-alarm --test
    same 'is a mail to root' "$(head -1 /root/mailed)" '-s record-office: a test of the alarm root'
    systemctl start record-office-alarm@$unit.service
    same 'as is a unit that has failed' "$(head -1 /root/mailed)" '-s record-office: CRITICAL: status root'
    is 'with the status' grep '^[A-Z]*: program: ' /root/mailed
    rm -f /usr/local/bin/mail /root/mailed
    [ -z "$mail" ] || mv /root/mail.away "$mail"
}

every_unit() {
    local file unit
    for file in /lib/systemd/system/record-office{,*[!@]}.service; do
        unit=$(basename "$file")
        [ "$unit" = record-office-resume.service ] || # which the probe asks for again
            same "who is told that $unit has failed" "$(systemctl show -p OnFailure --value "$unit" | tr ' ' '\n' | grep alarm)" "record-office-alarm@$unit.service"
    done
    same 'of an added office too' "$(systemctl show -p OnFailure --value record-office@harbour)" 'record-office-alarm@record-office@harbour.service.service'
    # shellcheck disable=SC2016
    printf 'ALARM_COMMAND='"'"'(echo "$1"; cat) >>%s'"'\nLIMIT=3\n" $told >$conf
}

# A store that is not sound: three starts, then the unit is failed, says why, and somebody is told.
damaged() {
    systemctl start record-office-backup
    begins
    systemctl stop record-office
    runuser -u record-office -- sqlite3 $office 'UPDATE office SET seats = 0'
    systemctl start record-office
    is 'after some starts the unit has failed' waits has_failed record-office
    is 'systemd lists it' sh -c 'systemctl --failed --no-pager | grep -q record-office.service'
    same 'there were three' "$(journal record-office | grep -c '^the program ended: exited 3')" 3
    same 'one line says what was found, and where help is' "$(journal record-office | grep -c "\`check\` says: not sound 1.*OPERATING.md.gz: go back to a copy")" 1
    same 'no word of systemd stands for a status of the program' "$(journal record-office | grep -c NOTIMPLEMENTED)" 0
    is 'somebody is told' waits is_told '^record-office: CRITICAL: program'
    is 'with the status and the last lines' sh -c "grep -q '^CRITICAL: program: ' $told && grep -q 'not sound 1' $told"
    same 'readers are told at once' "$(status -m 2 $readers/public/fonds)" 503
    same 'so says the status' "$(line program | cut -d: -f1)" CRITICAL
    is 'the desk can read it' sh -c 'curl -s -u desk:quiet-paper http://127.0.0.1:8081/lists/status.json | grep "\"level\": 2, \"name\": \"program\""'
    is 'a restore' record-office-restore --yes "$copy"
    is 'brings all back, the queue too' waits is_answered
    rm -r "${office%/*}"/replaced-*
}

# What passes by itself is no failure: something that had the store open for a while.
passing() {
    begins
    systemctl stop record-office
    (sleep 8 | runuser -u record-office -- record_office talk --store $office) &
    sleep 0.5
    systemctl start record-office
    wait
    is 'a store that something else had open is answered for once it is free' waits is_answered
    systemctl kill -s KILL record-office
    is 'a kill is no failed start' waits is_answered
    same 'no unit has failed' "$(systemctl list-units --failed --no-legend --no-pager 'record-office*')" ''
}

# says TEXT: the journal of the program's unit has this text
says() { journal record-office | grep "$1"; }

# An sqlite3 shell reads something of the office, and then waits for what comes by descriptor 9.
shell_reads() {
    runuser -u record-office -- sqlite3 $office </root/typed >/root/shown 2>&1 &
    exec 9>/root/typed
    echo 'SELECT seats FROM office;' >&9
}

# An idle sqlite3 shell that has read something: beside it the program does not start, and its process is named. One that comes
# while the program runs reads nothing, and holds nobody up.
shells() {
    local holder
    begins
    systemctl stop record-office
    mkfifo /root/typed
    shell_reads
    is 'an idle sqlite3 shell has read the office' waits grep '^12$' /root/shown
    systemctl start record-office
    is 'beside it the program does not start: store fault' waits says '^the program ended: exited 3.*store fault'
    MINUTES=3 is 'after some starts the unit has failed' waits has_failed record-office
    holder=$(says 'has failed to start' | sed -n 's/.*Process \([0-9]*\) has it open.*/\1/p')
    same 'and says what has the office open' "$(cat "/proc/${holder:-none}/comm")" sqlite3
    [ -z "$holder" ] || kill -KILL "$holder"
    exec 9>&-
    wait
    systemctl start record-office
    is 'once the shell is gone a start brings all back' waits is_answered

    shell_reads
    is 'a shell beside the running program reads nothing' waits grep 'database is locked' /root/shown
    is 'and readers get an answer' is_answered
    systemctl restart record-office
    is 'also after a restart beside it' waits is_answered
    exec 9>&-
    wait
    rm /root/typed /root/shown
}

# A process that is stopped, which systemd takes for active.
halted() {
    local process began
    begins
    process=$(systemctl show -p MainPID --value record-office)
    if [ "$process" = 0 ]; then # to kill, that is this script
        echo 'FAILED: no program runs that could be stopped'
        return
    fi
    kill -STOP "$process"
    same 'systemd takes a stopped process for active' "$(systemctl is-active record-office)" active
    began=$SECONDS
    systemctl start record-office-probe 2>/dev/null
    is 'the probe notices it' is_told '^record-office: CRITICAL: program'
    is 'long before the limit that it has by itself' test $((SECONDS - began)) -lt 45
    is 'it is told what to do' is_told "kill -CONT $process"
    systemctl start record-office-probe 2>/dev/null
    sleep 1
    same 'once, though it goes on' "$(grep -c '^record-office: ' $told)" 1
    kill -CONT "$process"
    waits is_answered
    systemctl start record-office-probe
    is 'and once that it is mended' is_told '^record-office: mended: program'
    same 'its timer runs' "$(systemctl is-active record-office-probe.timer record-office-status.timer | xargs)" 'active active'
}

# A kill of all processes of the backup, four times, while the program is stopped; and of a restore.
killed() {
    local time
    for time in 1 2 3 4; do
        printf '#!/bin/sh\nsleep 60\n' >/usr/local/sbin/sqlite3 && chmod 755 /usr/local/sbin/sqlite3
        systemctl start --no-block record-office-backup
        waits sh -c '! systemctl is-active -q record-office'
        systemctl kill -s KILL record-office-backup
        rm /usr/local/sbin/sqlite3
        is "kill $time of the whole backup does not leave the office stopped" waits is_answered
    done
    systemctl reset-failed record-office-backup
    touch /run/record-office/resume-record-office.service
    systemctl stop record-office
    systemctl start record-office-probe 2>/dev/null
    is 'nor does one of another tool, once the probe comes' waits is_answered
    is 'the mark of that is gone' sh -c '! ls /run/record-office/resume-*'
}

# fault NAMES WHAT PLANT MEND: what is planted is told within two looks of the probe, once, under these names; what is mended, once
fault() {
    rm -f $told /run/record-office/told-*
    bash -c "$3" >/dev/null 2>&1
    systemctl start record-office-probe
    systemctl start record-office-probe
    sleep 1
    same "$2: told once" "$(grep '^record-office: ' $told | xargs -d '\n')" "record-office: CRITICAL: $1"
    bash -c "$4" >/dev/null 2>&1
    sleep 3
    systemctl start record-office-probe
    same "$2: and once that it is mended" "$(grep -c "^record-office: mended: $1\$" $told)" 1
}

# loop PART: a unit that ends again and again is told by systemd's own limit, without the probe
loop() {
    local unit=record-office-$1.service conf=/run/systemd/system/record-office-$1.service.d
    rm -f $told /run/record-office/told-*
    mkdir -p "$conf" && printf '[Service]\nExecStartPre=/bin/false\n' >"$conf/loop.conf" && systemctl daemon-reload
    systemctl restart "$unit" 2>/dev/null
    MINUTES=4 is "$unit, which ends again and again, is told" waits is_told "^record-office: CRITICAL: $1"
    sleep 5
    same 'once' "$(grep -c '^record-office: ' $told)" 1
    rm -r "$conf" && systemctl daemon-reload
    systemctl start record-office-probe
    is 'and started again by the probe' waits systemctl -q is-active "$unit"
}

certificate() { # DAYS NAMES
    openssl req -x509 -newkey rsa:2048 -nodes -days "$1" -subj /CN=x -addext "subjectAltName=$2" \
        -keyout /etc/record-office/key.pem -out /etc/record-office/certificate.pem 2>/dev/null
}

# The certificates that are served, and the addresses, wherever the front listens.
certificates() {
    local both=DNS:archive.example.org,DNS:desk.example.org load='systemctl reload nginx record-office-desk'
    export -f certificate
    certificate 30 $both
    ln -sfn ../sites-available/record-office-tls /etc/nginx/sites-enabled/record-office
    cp /etc/record-office/desk-tls.conf /etc/record-office/desk-nginx.conf
    nginx -t -q && systemctl reload nginx && systemctl restart record-office-desk
    is 'with TLS nothing is red' waits record-office-status
    fault certificate 'a certificate that was renewed and not loaded' "certificate 90 $both" "$load"
    fault certificate 'one that the desk has not loaded' "certificate 120 $both; systemctl reload nginx" "$load"
    fault certificate 'one that ends in two days' "certificate 2 $both; $load" "certificate 30 $both; $load"
    fault certificate 'one that has ended' "certificate 0 $both; $load" "certificate 30 $both; $load"
    fault nginx 'a key of another certificate' 'openssl genrsa -out /etc/record-office/key.pem' "certificate 30 $both; $load"
    fault nginx 'without nginx, which has a certificate' 'systemctl stop nginx' 'systemctl start nginx'
    fault desk 'without the desk, which has one' 'systemctl stop record-office-desk' 'systemctl start record-office-desk'
    fault certificate 'one of another name' "certificate 30 DNS:archive.example.org; $load" "certificate 30 $both; $load"
    certificate 10 $both && $load
    sleep 1
    same 'one that ends in ten days is a warning' "$(line certificate | cut -d: -f1)" WARNING
    rm -f $told /run/record-office/told-*
    systemctl start record-office-status
    is 'which is told in the morning' is_told '^record-office: WARNING: certificate'
    ln -sfn ../sites-available/record-office /etc/nginx/sites-enabled/record-office
    cp /usr/share/record-office/own/desk-nginx.conf /etc/record-office/
    sed -i 's/8081/8071/' /etc/record-office/desk-nginx.conf
    sed -i 's/8080/8070/' /etc/nginx/sites-available/record-office
    nginx -t -q && systemctl reload nginx && systemctl restart record-office-desk
    is 'at other ports nothing is red' waits record-office-status
    sed -i 's/8070/8080/' /etc/nginx/sites-available/record-office
    cp /usr/share/record-office/own/desk-nginx.conf /etc/record-office/
    nginx -t -q && systemctl reload nginx && systemctl restart record-office-desk
}

# Another program that has the port of the office's.
other="python3 -c 'import socket, time; _ = socket.create_server((\"127.0.0.1\", 8090)); time.sleep(300)'"

# What breaks on a disk: the office on one of its own is read-only, full, damaged.
disks() {
    local folder=${office%/*} restart='systemctl reset-failed record-office; systemctl restart record-office record-office-queue' again
    again='systemctl stop record-office; systemctl start record-office; sleep 10'
    systemctl stop record-office record-office-try
    truncate -s 300M /root/disk && mkfs.ext4 -q /root/disk && cp -a "$folder" /root/kept
    if mount -o loop,errors=remount-ro /root/disk "$folder"; then
        rmdir "$folder/lost+found" && cp -a /root/kept/. "$folder/" && systemctl start record-office record-office-try
        waits is_answered
        fault command 'a file system that its kernel has made read-only' "mount -o remount,abort $folder" \
            "systemctl stop record-office record-office-try; umount $folder; systemctl start record-office record-office-try"
        systemctl stop record-office record-office-try
    fi
    mount -t tmpfs -o size=200m,mode=700 none "$folder" && cp -a /root/kept/. "$folder/" && chown record-office: "$folder"
    systemctl start record-office record-office-try
    waits is_answered
    fault 'command, disk' 'a full disk' "head -c 300M /dev/zero >$folder/filler" "rm $folder/filler"
    systemctl stop record-office record-office-try && umount "$folder" && systemctl start record-office record-office-try
    fault disk 'a full disk of the copies' "mount -t tmpfs -o size=1m none $copies" "umount $copies"
    fault disk 'one without inodes' "mount -t tmpfs -o nr_inodes=500 none $copies" "umount $copies"
    fault disk 'one that is read-only' "mount --bind $copies $copies; mount -o remount,bind,ro $copies" "umount $copies"
    fault store 'an office that was moved' "mv $office $office.away" "mv $office.away $office"
    fault store 'one that was replaced' "mv $office $office.away; cp -p $office.away $office" "mv $office.away $office"
    fault program 'an office of root' "chown root $office; $again" "chown record-office $office; $restart"
    fault program 'a hard link to it' "ln $office $folder/twin; $again" "rm $folder/twin; $restart"
    # shellcheck disable=SC2016  # the shell that is called expands it
    fault program 'a port that another has' "systemctl stop record-office; $other & echo \$! >/root/other; sleep 1; $again" \
        'kill $(cat /root/other);'" $restart"
    fault program 'a program that cannot be executed' "chmod 644 /usr/bin/record_office; $again" "chmod 755 /usr/bin/record_office; $restart"
    fault program 'a damaged page' "systemctl stop record-office; rm -f $office-wal; cp -p $office /root/office.db
        dd if=/dev/urandom of=$office bs=4096 seek=5 count=2 conv=notrunc; systemctl start record-office; sleep 10" \
        "cp -p /root/office.db $office; rm -f $office-wal; $restart"
    is 'each says what to do' sh -c "grep 'a page of $office is damaged: record-office-restore' $told"
    rm -rf /root/kept /root/disk /root/office.db
}

# What else may break. Each is red in its line, and nothing that follows from it is told.
parts() {
    local part unit=record-office-backup staff=/etc/record-office/staff index=/var/cache/private/record-office-readers
    local site=/etc/nginx/sites-available/record-office own=/usr/share/record-office/own share=/usr/share/record-office/server
    local open=/etc/nginx/sites-enabled/record-office load='systemctl reload nginx; sleep 1' hash="\\\$6\\\$a\\\$b"
    for part in queue readers desk try my; do
        fault $part "without record-office-$part" "systemctl stop record-office-$part" "systemctl start record-office-$part"
        fault $part "one that hangs" "systemctl kill -s STOP record-office-$part" "systemctl kill -s CONT record-office-$part"
        loop $part
    done
    fault program 'a program that was stopped' 'systemctl stop record-office' 'systemctl start record-office'
    fault nginx 'without nginx' 'systemctl stop nginx' 'systemctl start nginx'
    fault nginx 'an nginx that hangs' 'systemctl kill -s STOP nginx' 'systemctl kill -s CONT nginx'
    fault page 'a site that is not open' "mv $open /root/open; $load" "mv /root/open $open; $load"
    fault page 'one that has other pages' "sed -i '/server_name/s/$/ return 404;/' $site; $load" "sed -i 's/ return 404;//' $site; $load"
    fault queue 'a queue that would not start again' "cp --remove-destination $share/haproxy.cfg /etc/record-office/; echo nonsense >>/etc/record-office/haproxy.cfg" \
        "ln -sf $share/haproxy.cfg /etc/record-office/"
    fault readers 'an index that cannot be made' "chmod 500 $index; rm -f $index/index.db*" \
        "chmod 700 $index; systemctl restart record-office-readers; sleep 5"
    fault readers "an office's words that cannot be read" 'echo , >>/etc/record-office/office.json' "cp $own/office.json /etc/record-office/"
    fault nginx 'a site that nginx would not take' "echo nonsense >>$site" "sed -i '/nonsense/d' $site"
    fault staff 'an empty file of the staff' "cp -p $staff /root/staff; : >$staff" "cp -p /root/staff $staff"
    fault staff 'none' "mv $staff /root/staff" "mv /root/staff $staff"
    fault staff 'one with a password' "echo ann:secret >>$staff" "sed -i /^ann/d $staff"
    fault staff 'one with a part that there is not' "echo ann:$hash:part=porter >>$staff" "sed -i /^ann/d $staff"
    fault staff 'one with a part that the desk has not read' "echo ann:$hash:part=counter >>$staff" "sed -i /^ann/d $staff"
    fault staff 'one that nginx cannot read' "chmod 600 $staff" "chmod 640 $staff"
    fault copy 'a backup that fails' "echo COPY_COMMAND=false >/etc/record-office/backup.conf; systemctl start $unit" \
        "cp $own/backup.conf /etc/record-office/; systemctl start $unit"
    fault copy 'another folder that is not there' "echo COPY_FOLDER=/srv/none >/etc/record-office/backup.conf; systemctl start $unit" \
        "cp $own/backup.conf /etc/record-office/; systemctl start $unit"
    fault copy 'no night' "systemctl stop $unit.timer" "systemctl start $unit.timer"
    fault copy 'a clock that is behind' "touch -d '2 days' $copy" "touch $copy"
    fault copies 'a copy with another letter' "sed -i s/Hull/Hell/ $copy; rm -f /run/record-office/sums*" "systemctl start $unit"
    fault drill 'a copy that cannot be restored' "tar -cf ${copy%.db}.tar -C / etc/hostname; sed -i '/tar/d' $copy.sha256
        sha256sum ${copy%.db}.tar | sed 's#/.*/##' >>$copy.sha256; record-office-restore --drill" "systemctl start $unit"
}

# Each line of the status, and its exit statuses.
lines() {
    local copied size missing
    same 'a line for each part' "$(record-office-status | wc -l)" 18
    is 'nothing is red' record-office-status
    systemctl start record-office-probe
    is 'so says the status to every user' runuser -u nobody -- record-office-status
    size=$(stat -c %s $office) kept=("$copies"/office-*.db)
    missing=$((23 - ${#kept[@]}))
    same 'the room that copies and replaced offices will need' "$(line disk | sed 's/.*; \([0-9]*\) will be needed/\1/')" \
        "$(awk "BEGIN { printf \"%.0f\", ($size * (3 + $missing)) / 1048576 + 100 }")"
    copied=$(stat -c %y "$copy")
    touch -d '30 hours ago' "$copies"/office-*.db
    record-office-status >/tmp/said
    same 'a copy that is old: 1, as Nagios reads it' "$? $(head -1 /tmp/said)" '1 WARNING: copy'
    mkdir /root/sums && mv "$copies"/*.sha256 /root/sums
    touch -d '60 hours ago' "$copies"/office-*.db
    mv /root/sums/* "$copies" && rmdir /root/sums
    record-office-status >/tmp/said
    same 'one that is very old: 2' "$? $(head -1 /tmp/said)" '2 CRITICAL: copy'
    systemctl start record-office-probe
    is 'others read so, too' sh -c 'runuser -u nobody -- record-office-status | grep "^CRITICAL: copy: "'
    touch -d "$copied" "$copy"
    systemctl start record-office-backup
    touch -d '2 hours ago' /var/cache/private/record-office-readers/index.db*
    same 'a round that is old' "$(line readers | cut -d: -f1)" WARNING
    is 'whoever reads the status may stop early' sh -c 'record-office-status 2>/tmp/said | head -c 0; test ! -s /tmp/said'
    is 'then nothing is red' waits record-office-status
}

# An address that is called while nothing is critical.
alive() {
    python3 -c 'import http.server; http.server.test(http.server.SimpleHTTPRequestHandler, port=9999, bind="127.0.0.1")' 2>/root/called >/dev/null &
    echo 'ALIVE_URL=http://127.0.0.1:9999/all-is-well' >>$conf
    sleep 1
    systemctl start record-office-probe
    same 'while nothing is critical an address is called' "$(grep -c 'GET /all-is-well' /root/called)" 1
    systemctl stop record-office-readers
    systemctl start record-office-probe
    same 'else it is not' "$(grep -c 'GET /all-is-well' /root/called)" 1
    echo 'ALARM_COMMAND=false' >$conf
    rm -f /run/record-office/told-*
    systemctl start record-office-probe 2>/dev/null
    same 'a command that tells nobody is red at the desk' "$(line alarm | cut -d: -f1)" CRITICAL
    rm -f /run/record-office/untold-*
    systemctl start record-office-readers
    kill %%
}

by_mail
every_unit
damaged
passing
shells
halted
killed
# A second look comes after two seconds here.
sed -i 's/^PAUSE = .*/PAUSE = 2/' /usr/share/record-office/tools/record-office-status
lines
parts
disks
certificates
alive
cp /usr/share/record-office/own/alarm.conf $conf
systemctl reset-failed
