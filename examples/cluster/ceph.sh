#!/bin/sh
# CephFS from Debian's packages, on three servers with examples/cluster/ceph.conf as their /etc/ceph/ceph.conf:
#   ceph.sh monitor            on the first server: keys, the monitor and the manager
#   ceph.sh store NUMBER       on each server, with the admin's keyring of the first in /etc/ceph: an object store (0 to
#                              2), in a file of its folder; in the place of this, `ceph-volume lvm create --data DISK`
#   ceph.sh metadata NAME      on two of them: a metadata server, of which one stands by
#   ceph.sh files              on one of them: the pools and the file system `tapes`
#   ceph.sh again NUMBER NAME  on a server that comes back: its object store, and its metadata server if it has one
set -e
admin=/etc/ceph/ceph.client.admin.keyring
conf() { sed -n "s/^$1 = //p" /etc/ceph/ceph.conf; }

# A daemon's folder with its key.
key() {
    daemon=$1 name=$2
    shift 2
    mkdir -p "/var/lib/ceph/$daemon/ceph-$name" /run/ceph
    ceph auth get-or-create "$daemon.$name" "$@" -o "/var/lib/ceph/$daemon/ceph-$name/keyring"
}

case $1 in
monitor)
    mkdir -p /var/lib/ceph/mon/ceph-one /run/ceph
    ceph-authtool --create-keyring /etc/ceph/mon --gen-key -n mon. --cap mon 'allow *'
    ceph-authtool --create-keyring $admin --gen-key -n client.admin \
        --cap mon 'allow *' --cap osd 'allow *' --cap mds 'allow *' --cap mgr 'allow *'
    ceph-authtool /etc/ceph/mon --import-keyring $admin
    monmaptool --create --add one "$(conf mon_host)" --fsid "$(conf fsid)" /etc/ceph/monmap
    ceph-mon --mkfs -i one --monmap /etc/ceph/monmap --keyring /etc/ceph/mon
    ceph-mon -i one
    ceph mon enable-msgr2
    key mgr one mon 'allow profile mgr' osd 'allow *' mds 'allow *'
    ceph-mgr -i one
    ;;
store)
    identity=$(cat /proc/sys/kernel/random/uuid)
    ceph osd new "$identity" "$2"
    key osd "$2" mon 'allow profile osd' mgr 'allow profile osd' osd 'allow *'
    ceph-osd -i "$2" --mkfs --osd-uuid "$identity"
    ceph-osd -i "$2"
    ;;
metadata)
    key mds "$2" mon 'allow profile mds' mgr 'allow profile mds' mds 'allow *' osd 'allow *'
    ceph-mds -i "$2"
    ;;
files)
    ceph osd pool create tapes-data 8
    ceph osd pool create tapes-names 8
    ceph fs new tapes tapes-names tapes-data
    ceph fs set tapes session_timeout 30
    ;;
again)
    mkdir -p /run/ceph
    ceph-osd -i "$2"
    [ -z "$3" ] || ceph-mds -i "$3"
    ;;
*)
    sed -n '2,/^set -e/s/^# \{0,1\}//p' "$0" >&2
    exit 1
    ;;
esac
