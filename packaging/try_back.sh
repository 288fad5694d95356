#!/usr/bin/env bash
# try.sh calls this inside its booted root once there is an office: going back to copies and from there, without loss. It leaves the
# office with the readers that it has registered.
set -uo pipefail
office=/var/lib/record-office/office.db
copies=/var/backups/record-office
today=$(date +%F)
copy=$copies/office-$today.db
desk=http://127.0.0.1:8081

. "$(dirname "$0")/try_checks.sh"

# register NAME: registers a reader
register() { curl -s -u desk:quiet-paper -d "{\"name\":\"$1\",\"until\":\"2030-12-31\"}" $desk/desk/register >/dev/null; }

has_ticket() { [ "$(status -u desk:quiet-paper "$desk/desk/readers/$1")" = 200 ]; }

# The number of the last ticket: they have no gaps.
readers() {
    local last=0 none=1 middle
    while has_ticket $none; do last=$none none=$((2 * none)); done
    while [ $((none - last)) -gt 1 ]; do
        middle=$(((last + none) / 2))
        if has_ticket $middle; then last=$middle; else none=$middle; fi
    done
    echo $last
}

# A search that finds no index, since a restore has removed it, asks for a new one.
has_index() { status "http://127.0.0.1:8080/public/search?q=minutes" && test -e /var/cache/record-office-readers/index.db; }

# How many rows a table of the copy has.
rows() { sqlite3 "$copy" "SELECT count(*) FROM $1"; }

# Three readers who came after the copy, one with an order, are there again once the restore is undone.
undone() {
    local before aside order run
    systemctl start record-office-backup
    before=$(readers)
    order=$(($(rows orders) + 1)) run=$(($(rows run) + 1))
    for name in Dora Emil Fay; do register $name; done
    curl -s -u desk:quiet-paper -d "{\"ticket\":$((before + 1)),\"container\":2}" $desk/public/orders >/tmp/out
    curl -s -u desk:quiet-paper -d '' $desk/desk/run >/tmp/out
    is 'the search has an index' waits has_index
    systemctl stop record-office-readers
    is 'a restore of the copy of before' record-office-restore "$copy"
    cp /tmp/out /tmp/said
    is 'after it the search begins anew' test ! -e /var/cache/record-office-readers/index.db
    systemctl start record-office-readers
    is 'says which numbers come again' grep "tickets $((before + 1)) to $((before + 3)), orders $order to $order, runs $run to $run" /tmp/said
    same 'the three are gone' "$(readers)" "$before"
    asides=("${office%/*}"/replaced-*)
    aside=${asides[-1]}
    is 'their rows are in the log' test "$(stat -c %s "$aside/office.db-wal")" -gt 4096
    cp -r "$aside" /root/aside
    is 'the list has the copy and what was replaced' sh -c "record-office-restore >/tmp/list; grep -q 'office-$today.db .*with a SHA' /tmp/list && grep -q '$aside.*kept until' /tmp/list"
    is 'the restore is undone' record-office-restore "$aside/office.db"
    same 'all three are there' "$(readers)" $((before + 3))
    is 'what was replaced stays as it was' sh -c "cmp $aside/office.db /root/aside/office.db && cmp $aside/office.db-wal /root/aside/office.db-wal"
    same 'its readers are listed, as OPERATING says' "$(runuser -u record-office -- sqlite3 "$aside/office.db" \
        "SELECT ticket, name, date(until * 86400, 'unixepoch') FROM reader WHERE ticket > $before" | tail -1)" "$((before + 3))|Fay|2030-12-31"
    rm -r /root/aside "${office%/*}"/replaced-*
}

# A copy of another office, a damaged one, and one of version 1.
refused() {
    local before
    cp "$copy" /root/other.db && sqlite3 /root/other.db "UPDATE office SET repo = '0998', seats = 24"
    is 'the copy of another office is refused' sh -c '! record-office-restore /root/other.db </dev/null'
    cp /tmp/out /tmp/said
    is 'and it is said in what it differs' grep 'repo 0998 instead of 0999, seats 24 instead of 12' /tmp/said
    is 'nor does the second office take one of the first' sh -c \
        "! record-office-restore --office harbour '$copy' </dev/null && grep -q 'repo 0999 instead of 0998' /tmp/out"
    is 'whoever is asked and says no keeps the office' sh -c \
        "echo n | script -qec 'record-office-restore /root/other.db' /dev/null | grep 'record-office-restore: it is not taken'"
    is 'one whose office is meant is taken' record-office-restore --yes /root/other.db
    is 'that of the office itself is then another' sh -c "! record-office-restore '$copy' </dev/null"
    is 'and goes back if that is what somebody says' sh -c "echo y | script -qec 'record-office-restore $copy' /dev/null | grep '^sound: '"
    before=$(readers)
    is 'a copy has its SHA-256' sh -c "cd $copies && sha256sum --quiet -c office-$today.db.sha256"
    cp "$copy" "$copy.sha256" /root
    sed -i 's/Plans of the locks/Plant of the locks/' "/root/office-$today.db"
    same 'of a text that one bit changed the program finds nothing' "$(record_office check --store "/root/office-$today.db")" sound
    rm -f "/root/office-$today.db-wal"
    is 'the restore does' sh -c "! record-office-restore '/root/office-$today.db' && grep -q damaged /tmp/out"
    cp "$copy" "/root/office-$today.db" && head -c 5000 /dev/zero >"/root/office-$today.db-wal"
    is 'a log beside a copy with a SHA-256 is not taken for its own' sh -c "! record-office-restore '/root/office-$today.db' && grep -q 'is no log of this copy' /tmp/out"
    rm /root/office-* /root/other.db
    is 'a copy of version 1 is refused, and it is said what to do' sh -c '! record-office-restore /root/version1.db && grep -q "under Upgrading" /tmp/out'
    same 'nothing was changed' "$(readers)" "$before"
    install -o record-office -m 600 /root/version1.db "${office%/*}/old.db"
    same 'it is migrated' "$(runuser -u record-office -- record_office migrate --store "${office%/*}/old.db")" migrated
    is 'and then restored' record-office-restore --yes "${office%/*}/old.db"
    rm "${office%/*}"/old.db*
    same 'its readers are there' "$(readers)" 2
    is 'the copy goes back' record-office-restore --yes "$copy"
    is 'no part of a restore is left' sh -c "! ls ${office%/*} | grep -v '^office.db\|^register.db\|^replaced-'"
    rm -r "${office%/*}"/replaced-*
}

# What a clock far back, a lock, and the age of what was replaced do to the backup.
ages() {
    local folder=${office%/*} old
    old=$folder/replaced-$(date -d '40 days ago' +%F)-120000
    install -d -o record-office "$old" "$folder/replaced-$(date -d '20 days ago' +%F)-120000"
    touch "$copies"/office-{2031-01-01,2031-01-02,2031-01-03,2031-01-04,2031-01-05,2031-01-06,2031-01-07,2031-01-08}.db
    is 'a backup with a clock that is far back' systemctl start record-office-backup
    same 'leaves each copy' "$(find "$copies" -name 'office-2031*.db' -o -name "office-$today.db" | wc -l)" 9
    is 'and says why' sh -c 'journalctl --no-pager -o cat -u record-office-backup -n 20 | grep "the clock is behind"'
    rm "$copies"/office-2031*
    is 'an office that was replaced long ago is removed' test ! -e "$old"
    same 'one of late stays' "$(find "$folder" -maxdepth 1 -name 'replaced-*' | wc -l)" 1
    rm -r "$folder"/replaced-*

    systemctl stop record-office
    (sleep 8 | runuser -u record-office -- record_office talk --store $office) &
    sleep 1
    is 'a backup beside an import is tried again by itself' systemctl start record-office-backup
    is 'and says so' sh -c 'journalctl --no-pager -o cat -u record-office-backup -n 20 | grep "database is locked.*tried again"'
    wait
    systemctl start record-office

    systemctl stop record-office-queue
    python3 -c 'import socket, time; _ = socket.create_server(("127.0.0.1", 8092)); time.sleep(60)' &
    sleep 1
    is 'a backup whose queue ends while it is held' systemctl start record-office-backup
    kill %%
    systemctl start record-office-queue
}

undone
refused
ages
