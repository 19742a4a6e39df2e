#!/bin/sh
# Runs within the fresh Debian of try_packages, started by its systemd: the service starts, has a batch, is killed, comes back with the batch, and
# stops. What it says is in /packages/unit; "all held" is a line of it if all did.
exec >/packages/unit 2>&1
set -eux
trap "systemctl poweroff" EXIT
ask() {
    curl -sf -m 20 "$@"
}
systemctl start edgebpf-serve
ask -H 'Content-Type: application/json' -d '{"edits": [[0, 1], [1, 2]]}' http://127.0.0.1:8080/batches | grep -q '"version":1,"added":2'
kill -9 "$(systemctl show -p MainPID --value edgebpf-serve)"
for _ in 1 2 3 4 5 6 7 8 9 10; do
    sleep 1
    [ "$(systemctl is-active edgebpf-serve)" != active ] || [ "$(systemctl show -p NRestarts --value edgebpf-serve)" != 1 ] || break
done
ask http://127.0.0.1:8080/neighbours/1 | grep -q '"version":1,.*"neighbours":\[2\]'
systemctl stop edgebpf-serve
[ "$(systemctl show -p Result --value edgebpf-serve)" = success ]
journalctl -u edgebpf-serve --no-pager -o cat | tail -20
echo "all held"
