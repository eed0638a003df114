# What ipcmk, ipcrm and ipcs of util-linux do with queues: run on the system's own and by `msgq with`, it prints the same. The ids differ,
# and so does what the system has beside these.
set -u
made() { sed -n 's/^Message queue id: \([0-9]*\)$/\1/p'; }
# Its line of ipcs -q, without key, id and owner.
line() { ipcs -q | awk -v id="$1" '$2 == id { print $4, $5, $6 }'; }
one=$(ipcmk -Q -p 0640 | made)
two=$(ipcmk -Q | made)
line "$one"
line "$two"
ipcs -q | sed -n 2,3p
perl -e 'msgsnd($ARGV[0], pack("l! a*", 4, "four"), 0) or die $!' "$one"
line "$one"
ipcs -q -i "$one" | grep -o 'mode=[0-9]*\|cbytes=[0-9]*\|qbytes=[0-9]*\|qnum=[0-9]*' | tr '\n' ' '
echo
ipcs -q -p | awk -v id="$one" '$1 == id { print NF, ($3 > 0), $4 }'
ipcs -q -c | awk -v id="$one" '$1 == id { print $2 }'
ipcs -q -t | awk -v id="$one" '$1 == id { print ($0 ~ /Not set/) }'
key=$(ipcs -q | awk -v id="$one" '$2 == id { print $1 }')
ipcrm -Q "$key" && line "$one"
ipcrm -q "$two" && line "$two"
# (what was removed is EIDRM for ever here, and EINVAL there)
ipcrm -q "$two" 2>&1 | sed "s/$two/N/; s/already removed/invalid/"
ipcs -q -i "$two" 2>&1 | sed "s/$two/N/"
