#!/usr/bin/env bash
# try.sh calls this inside its booted root once there is an office: a reader is erased, boxes get other places, and My orders and
# the desk's services are used as readers and colleagues do.
set -uo pipefail
office=/var/lib/record-office/office.db
copy=/var/backups/record-office/office-$(date +%F).db
lists=/var/cache/record-office/lists
desk=http://127.0.0.1:8081

. "$(dirname "$0")/try_checks.sh"

# ask PATH [BODY]: the answer at the desk
ask() { curl -s -u desk:quiet-paper ${2+-d "$2"} "$desk/desk/$1"; }

# What the newest copy tells: query SQL
query() {
    systemctl start record-office-backup
    sqlite3 "$copy" "$1"
}

# twice TICKET: the reader's name is in the file twice, as after a change by an SQLite that does not overwrite what it deletes
twice() {
    systemctl stop record-office
    runuser -u record-office -- sqlite3 $office "PRAGMA secure_delete = OFF; UPDATE reader SET name = name || ' Smith' WHERE ticket = $1" >/tmp/said
    systemctl start record-office
}

# wanted TICKET: the units that the orders of a ticket are for
wanted() { sqlite3 -readonly /var/lib/record-office-try/ordered.db "SELECT unit FROM wanted WHERE ticket = $1"; }
knows() { [ "$(wanted "$1")" = "$2" ]; }

# A reader who has a closed box by a permit, and whose name stands in a list, a copy and an office that was put aside.
reader() {
    local ticket
    ticket=$(ask register '{"name":"Zephyrine Wilhelmina Margarethe","until":"2030-12-31"}' | tr -cd 0-9)
    ask register '{"name":"Yvonne","until":"2030-12-31"}' >/tmp/said
    twice "$ticket"
    ask closure '{"unit":2,"until":"2030-01-01"}' >/tmp/said
    ask permit "{\"ticket\":$ticket,\"unit\":2,\"until\":\"2030-01-01\"}" >/tmp/said
    curl -s -d "ticket=$ticket&container=1" http://127.0.0.1:8080/unit/2/order >/tmp/said
    is 'the desk knows which unit was wanted' waits knows "$ticket" 2
    ask run '' >/tmp/said
    ask seat "{\"ticket\":$ticket}" >/tmp/said
    same 'the box is out by permit' "$(ask issue "{\"ticket\":$ticket,\"container\":1}" | cut -c1-9)" '{"order":'
    is 'then the reader is not erased' sh -c "! record-office-erase $ticket"
    cp /tmp/out /tmp/said
    is 'and it is said why' grep "ticket $ticket has containers out.*: 1$" /tmp/said
    same 'the office is as it was' "$(ask "readers/$ticket" | grep -c Zephyrine)" 1
    is 'a ticket that is not there is none to erase' sh -c '! record-office-erase 900'
    ask return '{"container":1}' >/tmp/said
    ask reshelve '' >/tmp/said
    systemctl start record-office-backup
    is 'a copy may have the name twice' test "$(grep -ao Zephyrine "$copy" | wc -l)" -gt 1
    record-office-restore "$copy" >/tmp/said
    is 'the reader is erased' record-office-erase "$ticket"
    cp /tmp/out /tmp/said
    for place in "$copy " "$lists/readers.html " "${office%/*}/replaced-"; do is "it is said that the name is in $place" grep "the name of ticket $ticket is still in $place" /tmp/said; done
    same 'no byte of the file or its log has the name' "$(cat $office* | grep -c Zephyrine)" 0
    same 'nor does the desk know what was wanted' "$(wanted "$ticket")" ''
    same 'nor a permit' "$(ask "permits/$ticket")" '[]'
    same 'with the ticket nobody can order' "$(curl -s -u desk:quiet-paper -d "{\"ticket\":$ticket,\"container\":2}" $desk/public/orders | grep -o '"code":[0-9]*')" '"code":4'
    rm -r "${office%/*}"/replaced-*
    same 'the next backup has it no more, nor have its lists' "$(query "SELECT name FROM reader WHERE ticket = $ticket") $(grep -l Zephyrine $lists/* | wc -l)" 'erased 0'
    is 'what is in the folder of the office is the office and its register' sh -c "! ls ${office%/*} | grep -v '^office.db\|^register.db\$'"
    is 'who was here, by the log of the front' grep -q "^$(date +%F),$ticket,erased,..:..,desk," $lists/visits.csv
    is 'who gave what to whom' grep -q "^$(date +%F),1,Box 1,$ticket,erased,..:..,desk,$(date +%F),..:..,desk" $lists/handed.csv
    ask closure '{"unit":2,"until":null}' >/tmp/said
}

# What an import would change is answered at the desk, by a service that cannot reach the office; a file that was imported is kept,
# and the next lists tell what differs from it.
tries() {
    local answer pid
    sed 's/Minutes/Minute books/; s/,Letters of the secretary,Series,Draft,/,Letters of the secretary,Series,Published,/' /root/boxes.csv >/root/tried.csv
    answer=$(curl -s -u desk:quiet-paper --data-binary @/root/tried.csv $desk/try/differences/catalogue)
    is 'a changed title is told' sh -c "printf %s '$answer' | grep '\"Title\", \"Minutes\", \"Minute books\"'"
    is 'so is a status that stays' sh -c "printf %s '$answer' | grep '\"publicationStatus\", \"draft\", \"published\"'"
    is 'the office is as it was' sh -c "curl -s $desk/public/units/2 -u desk:quiet-paper | grep Minutes"
    pid=$(systemctl show -p MainPID --value record-office-try)
    is 'the service does not see the office' hidden "$pid" $office
    same 'nginx alone may ask it, and the two services of readers tell it' "$(stat -c '%a %G' /run/record-office-try/*.sock | xargs)" '620 record-office-my 620 record-office-readers 660 www-data'
    is 'it has no network' sh -c "nsenter -t $pid -n ip -br link 2>/dev/null | grep -vq '^lo' && exit 1; exit 0"
    is 'a file is looked at' sh -c "curl -s -u desk:quiet-paper --data-binary @/root/tried.csv $desk/try/look | grep -q '\"counts\":{\"rows\":'"
    same 'a file is kept' "$(curl -s -u desk:quiet-paper --data-binary @/root/tried.csv $desk/try/imported/catalogue)" '{"kept": "catalogue"}'
    systemctl start record-office-backup
    is 'the list of what differs from it' grep -q '^catalogue,4,4,.*,status,draft,published' $lists/differs.csv
}

# Boxes keep their numbers when a file of old and new places is given before the import.
boxes() {
    local before
    before=$(query 'SELECT count(*) FROM container')
    printf 'name,location,newName,newLocation\nBox 1,Strongroom 2,Box 2,Strongroom 1\nBox 2,Strongroom 1,Box 1,Strongroom 2\nBox 3,Strongroom 1,,Strongroom 8\n' >/root/moved.csv
    is 'boxes get new places, two of them each other'"'s" record-office-relocate /root/moved.csv
    same 'under their numbers' "$(query 'SELECT id, name, location FROM container WHERE id < 4' | xargs)" \
        '1|Box 2|Strongroom 1 2|Box 1|Strongroom 2 3|Box 3|Strongroom 8'
    sed 's/Box 3,Strongroom 1/Box 3,Strongroom 8/; s/Box 1,Strongroom 2/Box 9,x/; s/Box 2,Strongroom 1/Box 1,Strongroom 2/; s/Box 9,x/Box 2,Strongroom 1/' /root/boxes.csv >/root/now.csv
    same 'an import with these places changes nothing' "$(curl -s -u desk:quiet-paper --data-binary @/root/now.csv $desk/desk/import/catalogue | grep -o '"new":0')" '"new":0'
    same 'and makes no new number' "$(query 'SELECT count(*) FROM container')" "$before"
    printf 'name,location,newLocation\nBox 3,Strongroom 8,Strongroom 1\nBox 3,Strongroom 7,Strongroom 1\n' >/root/wrong.csv
    is 'a box that is not there: no row is done' sh -c '! record-office-relocate /root/wrong.csv && grep -q "row 3: there is no box" /tmp/out'
    printf 'name,location,newName,newLocation\nBox 3,Strongroom 8,Box 1,Strongroom 2\n' >/root/wrong.csv
    is 'a place that another box has is refused' sh -c '! record-office-relocate /root/wrong.csv && grep -q "row 2: box 2 is at the new place" /tmp/out'
    for wrong in 'name,place\nx,y\n' 'name,location,newName\n\377\n' ''; do
        # shellcheck disable=SC2059
        printf "$wrong" >/root/wrong.csv
        # shellcheck disable=SC2016  # the shell that is called expands it
        is 'a file of another kind is refused in a sentence' sh -c '! record-office-relocate /root/wrong.csv && test "$(wc -l </tmp/out)" = 1'
    done
    same 'nothing was changed' "$(query 'SELECT location FROM container WHERE id = 3')" 'Strongroom 8'
    record-office-relocate /root/missing.csv >/tmp/said 2>&1
    same 'a file that is missing is said too' "$(cat /tmp/said)" "record-office-relocate: [Errno 2] No such file or directory: '/root/missing.csv'"
    printf 'newName,newLocation,name,location\nBox 1,Strongroom 2,Box 2,Strongroom 1\nBox 2,Strongroom 1,Box 1,Strongroom 2\nBox 3,Strongroom 1,Box 3,Strongroom 8\n' >/root/back.csv
    is 'all goes back' record-office-relocate /root/back.csv
}

# mine PATH [ARGUMENT ..]: what My orders answers to a browser that keeps its cookie; leads SECRET: the status of this address
mine() { curl -s -b /tmp/jar -c /tmp/jar "http://127.0.0.1:8080/my$1" "${@:2}"; }
shows() { mine "${@:2}" | grep "$1"; }
leads() { mine "/$1" -o /dev/null -w '%{http_code}'; }

# card TICKET [ARGUMENT ..]: what the desk is told of a ticket's address; secret TICKET: what follows /my/ in it
card() { curl -s -u desk:quiet-paper "$desk/my/$1" "${@:2}"; }
secret() { card "$1" | sed 's#.*/my/\([^"]*\)".*#\1#'; }

# My orders by the address on a ticket, of which a command tells what is ready; and what its service can reach.
my_orders() {
    local ticket old queue=/run/record-office-queue/my unit=record-office-my
    ticket=$(ask register '{"name":"Mo","until":"2030-12-31"}' | tr -cd 0-9)
    sed -i '1s#{#{ "site": "http://127.0.0.1:8080",#' /etc/record-office/office.json
    echo "READY_COMMAND='cat >>/root/ready'" >/etc/record-office/my-orders.conf
    systemctl restart record-office-readers $unit
    old=$(secret "$ticket")
    same 'the code of a ticket leads to a page' "$(card "$ticket" | grep -c '"path"') $(leads "$old")" '1 302'
    is 'where a reader orders' shows Ordered /order -d container=3-2
    is 'of which the desk knows the unit' waits knows "$ticket" 3
    is 'and wants to be told' shows 'You will get a message' /message -d wanted=1
    ask run '' >/tmp/said
    is 'what is ready is shown' shows 'class="state ready"' ''
    systemctl start record-office-probe
    systemctl start record-office-probe
    same 'and told once' "$(cat /root/ready)" "$ticket"
    is 'the reader cancels' shows 'is cancelled' /cancel -d "order=$(ask "readers/$ticket" | sed 's/.*"order":\([0-9]*\).*/\1/')"
    systemctl start record-office-backup
    is 'which the register has' grep 'the reader' $lists/cancelled.csv
    card "$ticket" -X POST >/tmp/said
    same 'a new address voids the old one' "$(leads "$old") $(leads "$(secret "$ticket")")" '404 302'
    same 'which no log has' "$(cat /var/log/nginx/*.log | grep -c "$old")" 0
    same 'the key and the way to the queue are its own' "$(stat -c '%G %a' /var/lib/$unit/key $queue $queue/queue.sock | xargs)" "$unit 600 $unit 2710 $unit 660"
    is 'it sees neither the office nor the passwords' hidden "$(systemctl show -p MainPID --value $unit)" $office /etc/record-office/staff
    systemctl disable -q --now $unit
    same 'switched off there is no code, and nothing is red' "$(card "$ticket" -o /dev/null -w '%{http_code}') $(record-office-status | grep -c '^OK: my: .*switched off')" '204 1'
    systemctl enable -q --now $unit
    cp /usr/share/record-office/own/{office.json,my-orders.conf} /etc/record-office/
    systemctl restart record-office-readers $unit
}

# What a colleague has in hand is found in the copy of the night.
found() {
    is 'a title is found' sh -c "curl -s -u desk:quiet-paper -d 'plans locks' $desk/try/find | grep '\"Plans of the locks\"'"
    is 'and where a box belongs' sh -c "curl -s -u desk:quiet-paper -d '[2]' $desk/try/boxes | grep '\"Strongroom 1\"'"
}

reader
tries
my_orders
found
boxes
