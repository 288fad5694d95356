#!/usr/bin/env bash
# try.sh calls this inside its booted root once there is an office: a page that takes more memory than the unit may have. It leaves
# the office as it was.
set -uo pipefail
copy=/var/backups/record-office/office-$(date +%F).db
readers=http://127.0.0.1:8080
desk=http://127.0.0.1:8081
unit=record-office
drop_in=/run/systemd/system/$unit.service.d
levels=60

. "$(dirname "$0")/try_checks.sh"

# A file of units one below the other, each with an identifier of 20,000 letters, and 400 items below the lowest: their codes alone
# take 480 MB, each with all identifiers above.
deep() {
    python3 - $levels <<'END'
import sys

levels = int(sys.argv[1])
print("legacyId,parentId,identifier,title,levelOfDescription,publicationStatus")
for number in range(1, levels + 1):
    print(number, number - 1 or "", "x" * 20000, "Deep", "Series", "Published", sep=",")
for number in range(levels + 1, levels + 401):
    print(number, levels, number, "Item", "Item", "Published", sep=",")
END
}

# The process of the program, and how often systemd has started it again.
process() { systemctl show -p MainPID,NRestarts --value $unit | xargs; }

memory() {
    local top before
    systemctl start record-office-backup
    systemctl stop record-office-readers # its rounds would ask for the page, too
    mkdir -p $drop_in
    printf '[Service]\nLimitAS=256M\n' >$drop_in/memory.conf
    systemctl daemon-reload && systemctl restart $unit
    deep >/root/deep.csv
    same 'a file with long codes is imported' "$(status -u desk:quiet-paper --data-binary @/root/deep.csv $desk/desk/import/deep)" 200
    top=$(curl -s $readers/public/fonds | sed -n 's/^\([0-9]*\) GB 0999 xxx.*/\1/p')
    before=$(process)
    same 'a page that takes more memory than there may be' "$(status $readers/public/units/$((top + levels - 1)))" 503
    same 'the next page is right' "$(curl -s $readers/public/fonds | head -1)" '1 GB 0999 HUL [Fonds] Hull Dock Company'
    same 'so is one of that file' "$(curl -s "$readers/public/units/$top" | grep -c '\[Series\] Deep')" 2
    same 'the program was not started again' "$(process)" "$before"
    rm -r $drop_in /root/deep.csv
    systemctl daemon-reload
    is 'the office goes back to what it was' record-office-restore "$copy"
    rm -r /var/lib/record-office/replaced-*
    systemctl start record-office-readers
}

for office in $unit $unit@harbour; do
    same "what $office may take" "$(systemctl show -p LimitAS,MemoryMax,LimitFSIZE "$office" | sort | xargs)" \
        "LimitAS=$((2 << 30)) LimitFSIZE=infinity MemoryMax=$((2200 << 20))"
done
memory
