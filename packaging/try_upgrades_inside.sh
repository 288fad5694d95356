#!/usr/bin/env bash
# try_upgrades.sh calls this inside its booted root, for one case: VERSION-OFFICES-FILES-SITE, such as 87a45c06-two-edited-tls. It
# installs the old version, upgrades beside readers and staff, merges what is to be merged, goes back, upgrades again, and purges.
set -uo pipefail
case=$1
IFS=- read -r version offices files site <<<"$1"
. "$(dirname "$0")/try_checks.sh"
sites=/etc/nginx/sites-available
share=/usr/share/record-office
parts=(record-office record-office-queue record-office-readers record-office-desk record-office-try record-office-my)
timers=(record-office-backup record-office-probe record-office-status)
old_parts=("${parts[@]:0:5}") old_timers=("${timers[@]}")
if [ "$version" = 87a45c06 ]; then old_parts=(record-office record-office-queue record-office-search) old_timers=(record-office-backup); fi
ports=(8080 8081)
[ "$files-$site" != edited-plain ] || ports=(8070 8071)
urls=("http://127.0.0.1:${ports[0]}" "http://127.0.0.1:${ports[1]}/desk/issued")
[ "$site" = plain ] || urls=(https://archive.example.org https://desk.example.org:8443/desk/issued)
urls+=("${urls[0]}/public/fonds")
[ "$offices" = one ] || urls+=(http://127.0.0.1:8180/ http://127.0.0.1:8180/public/fonds http://127.0.0.1:8181/desk/issued)

# What runs begins anew once. The first package's limits count something else, so that nginx must begin anew, too.
away='1 time'
[ "$version" != 87a45c06 ] || away='2 times'
of_upgrades=$away

# asked URL: the HTTP status
asked() { curl -sk -o /dev/null -m 20 -w '%{http_code}' -u desk:quiet-paper --connect-to ::127.0.0.1: "$1"; }

# all_answered: whether each address is answered with 200
all_answered() {
    local url
    for url in "${urls[@]}"; do [ "$(asked "$url")" = 200 ] || { echo "$url: $(asked "$url")"; return 1; }; done
}

# beside WHAT COMMAND ..: does it while each address is asked, and says how long each was away
beside() {
    local what=$1 n url asking=()
    shift
    touch /tmp/go
    for n in "${!urls[@]}"; do
        url=${urls[n]}
        (while [ -e /tmp/go ]; do echo "$(date +%s.%N) $(asked "$url")"; sleep 0.5; done >"/tmp/asked.$n") &
        asking+=($!)
    done
    is "$case: $what" "$@"
    is "$case: $what, and all is answered" waits all_answered
    rm /tmp/go
    wait "${asking[@]}"
    for n in "${!urls[@]}"; do
        awk -v url="${urls[n]}" '
            $2 == 200 { if (bad) { gone = $1 - last; if (gone > most) most = gone; times++ } bad = 0; last = $1 }
            $2 != 200 { bad = 1; wrong++; kinds[$2] = 1 }
            END { for (kind in kinds) all = all " " kind; printf "  %s: %d of %d not 200 (%s ), away %d times, at most %.1f s\n", url, wrong, NR, all, times, most }' "/tmp/asked.$n"
        is "$case: $what: ${urls[n]} was away $away at most" test "${away%% *}" -ge \
            "$(awk '$2 != 200 { if (!bad) times++; bad = 1 } $2 == 200 { bad = 0 } END { print times + 0 }' "/tmp/asked.$n")"
    done
}

# units SUFFIX TYPE NAME ..: their names for an office
units() { local suffix=$1 type=$2 name; shift 2; for name; do echo "$name$suffix.$type"; done; }

# makes an office: office FOLDER REPOSITORY SETTINGS
office() {
    runuser -u record-office -- record_office init --store "$1/office.db" --country GB --repo "$2" --seats 4 --daily 8 --hands 2 --run 20 --day 2024-03-01
    runuser -u record-office -- cp /root/archives.csv "$1/import.csv" && (cd "$1" && runuser -u record-office -- record_office import --store office.db --source archives import.csv >/tmp/import)
    install -m 640 -g www-data /dev/null "$3/staff"
    echo "desk:$(openssl passwd -6 quiet-paper)" >"$3/staff"
}

installs_old() {
    dpkg -i "/root/$version.deb" </dev/null
    office /var/lib/record-office 0999 /etc/record-office
    (cd /etc/record-office && openssl req -x509 -newkey rsa:2048 -nodes -days 30 -subj /CN=archive.example.org -keyout key.pem -out certificate.pem 2>/dev/null)
    if [ "$version" = 87a45c06 ]; then cp /usr/share/doc/record-office/examples/tls.conf $sites/record-office-tls; fi
    local open=record-office
    if [ "$site" = tls ]; then
        open=record-office-tls
        echo '# the names are ours' >>$sites/record-office-tls
        if [ "$version" != 87a45c06 ]; then cp /etc/record-office/desk-tls.conf /etc/record-office/desk-nginx.conf; fi
    fi
    if [ "$files" = edited ]; then
        sed -i 's/8080/8070/; s/8081/8071/' $sites/record-office
        if [ -e /etc/record-office/desk-nginx.conf ]; then sed -i 's/8081/8071/' /etc/record-office/desk-nginx.conf; fi
        sed -i 's/rate=50r/rate=40r/' /etc/record-office/common.conf
        sed -i 's/"name": .*/"name": "Our own office",/' /etc/record-office/office.json
        echo 'COPY_FOLDER=/srv' >>/etc/record-office/backup.conf
    fi
    ln -sfn ../sites-available/$open /etc/nginx/sites-enabled/record-office
    if [ "$offices" = two ]; then
        record-office-add harbour 8180
        office /var/lib/record-office-harbour 0998 /etc/record-office/harbour
        ln -sfn ../sites-available/record-office-harbour /etc/nginx/sites-enabled/
        mapfile -t added < <(units @harbour service "${old_parts[@]}"; units @harbour timer "${old_timers[@]}")
        systemctl enable --quiet --now "${added[@]}"
    fi
    mapfile -t first < <(units '' service "${old_parts[@]}"; units '' timer "${old_timers[@]}")
    systemctl enable --quiet --now "${first[@]}"
    systemctl reload-or-restart nginx
}

# runs SUFFIX: which units of the new version do not run
runs() {
    local unit
    for unit in $(units "$1" service "${parts[@]}") $(units "$1" timer "${timers[@]}"); do
        systemctl is-active --quiet "$unit" || echo "$unit"
    done | xargs
}

# red: the line of the status on what is to be merged
red() { record-office-status | sed -n 's/^\([A-Z]*\): files: .*/\1/p'; }

# The desk stays in the operator's own site of the old form, until the operator moves it.
in_site=
if [ "$version" = 87a45c06 ] && [ "$files-$site" != given-plain ]; then in_site=record-office-desk.service; fi
is_red=OK
if [ -n "$in_site" ] || [ "$files" = edited ]; then is_red=CRITICAL; fi

upgraded() {
    same "$case: $1: all units run, but the desk's if the site has it" "$(runs '')" "$in_site"
    [ "$offices" = one ] || same "$case: $1: of the second office too" "$(runs @harbour)" ''
    same "$case: $1: no old search runs" "$(pgrep -f search/service.py)" ''
    same "$case: $1: nothing of the search stays" "$(ls -d /var/cache/record-office-search* /etc/systemd/system/*.wants/record-office-search* 2>/dev/null)" ''
    systemctl restart nginx
    systemctl try-restart record-office-desk
    is "$case: $1: after the servers began again all is answered" waits all_answered
    same "$case: $1: the status tells of what is to be merged" "$(red)" "$is_red"
    [ "$files" = given ] || is "$case: $1: what the operator wrote stays" grep -q 'Our own office' /etc/record-office/office.json
}

# What the status says to merge, and then it is not red.
merges() {
    local told
    told=$(record-office-status | grep '^CRITICAL: files: ')
    is "$case: the status names file and line: $told" grep -qE '/etc/[a-z/.-]+, line [0-9]+' <<<"$told"
    rm -f /etc/record-office/*.dpkg-bak
    if [ -n "$in_site" ] && [ "$site" = plain ]; then
        sed 's/8080/8070/' $share/site >$sites/record-office
        sed -i 's/8081/8071/' /etc/record-office/desk-nginx.conf
    elif [ -n "$in_site" ]; then
        cp $share/site-tls $sites/record-office-tls
        cp /etc/record-office/desk-tls.conf /etc/record-office/desk-nginx.conf
    fi
    is "$case: after that nginx reads its files" nginx -t -q
    systemctl reload nginx && systemctl restart record-office-desk
    is "$case: and all is answered" waits all_answered
    same "$case: by the desk's own nginx" "$(runs '')" ''
    same "$case: and nothing is red" "$(red)" OK
}

# What is refused before anything is touched, and what fails: the old version serves on.
refused() {
    local was
    was=$(dpkg-query -W -f '${Version}' record-office)
    echo 'nonsense;' >/etc/nginx/conf.d/nonsense.conf
    is "$case: an upgrade beside a broken nginx is refused" sh -c '! dpkg -i /root/new.deb </dev/null'
    rm /etc/nginx/conf.d/nonsense.conf
    if [ "$version-$site" = 87a45c06-plain ]; then
        cp /etc/record-office/common.conf /etc/record-office/our-common.conf
        sed -i 's/common.conf/our-common.conf/' $sites/record-office
        is "$case: so is one with a copy that would not fit" sh -c '! dpkg -i /root/new.deb </dev/null >/tmp/said 2>&1 && grep "line [0-9]*, includes a copy" /tmp/said'
        sed -i 's/our-common.conf/common.conf/' $sites/record-office
        rm /etc/record-office/our-common.conf
    fi
    same "$case: the old version stays" "$(dpkg-query -W -f '${Version} ${db:Status-Status}' record-office)" "$was installed"
    is "$case: and answers" all_answered
}

# An upgrade whose files nginx cannot read: what ran goes on, and the next upgrade mends it.
breaks() {
    is "$case: an upgrade that nginx cannot read fails" sh -c '! dpkg -i /root/broken.deb </dev/null'
    is "$case: and all is answered as before" all_answered
    same "$case: by the old version" "$(pgrep -fc '/usr/share/record-office/(search|readers)/service.py')" \
        "$(systemctl list-units --plain --no-legend --state=running 'record-office-search*' 'record-office-readers*' | wc -l)"
}

is "$case: the old version" installs_old
is "$case: the old version answers" waits all_answered
refused
if [ "$offices-$files" = two-given ]; then breaks; fi
beside upgrade dpkg -i /root/new.deb
upgraded upgrade
away='2 times' # both old packages begin their units anew one after the other
beside 'going back' dpkg -i --force-confold "/root/$version.deb"
systemctl restart nginx
is "$case: after that nginx begins again, and all is answered" waits all_answered
same "$case: no unit has failed" "$(systemctl list-units --plain --no-legend --state=failed,not-found 'record-office*')" ''
away=$of_upgrades
beside 'upgrade again' dpkg -i /root/new.deb
upgraded 'upgrade again'
if [ $is_red = CRITICAL ]; then merges; fi
is "$case: once more" sh -c 'dpkg -i /root/new.deb </dev/null'
is "$case: all is answered after that" waits all_answered
rm -f /etc/record-office/*.pem
is "$case: purge" dpkg --purge record-office
rm -f $sites/record-office*
same "$case: nothing stays but the offices" "$(find / -xdev -path '*record-office*' ! -path '/proc/*' ! -path '/root/*' ! -path '/var/lib/record-office*' \
    ! -path '/var/backups/*' ! -path '/var/log/*' ! -path '/tmp/*')" ''
rm -rf /var/lib/record-office* /var/backups/record-office* /var/log/nginx/record-office*
systemctl reset-failed
echo 'to the end'
