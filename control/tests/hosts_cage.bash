# control/tests/hosts_cage.bash FOLDER TREE: the inside of a cage of test_hosts_page.py, which unshare
# has made: a machine of its own at 10.0.0.254, and the hosts h1, h2 and h3 at 10.0.0.1 to 10.0.0.3,
# each with a network, a name, and folders /etc, /run and /var/lib/etcd of its own. FOLDER/h1/pid is
# the process whose namespaces are h1. All of it ends with this script, ten minutes later.
set -e
folder=$1 tree=$2
mount -t tmpfs none /run
mount -t tmpfs -o mode=755 none "$folder"
mkdir /run/netns "$folder/tree" "$folder/bin"
mount --bind "$tree" "$folder/tree"
ip link set lo up
ip link add br0 type bridge
ip address add 10.0.0.254/24 dev br0
ip link set br0 up

# The first process of a host, which makes its folders and stays.
host() {
    mkdir -p "$folder/$1/var/lib/etcd"
    cp -a /etc "$folder/$1/etc"
    mount --bind "$folder/$1/etc" /etc
    mount --bind "$folder/$1/var/lib/etcd" /var/lib/etcd
    mount -t tmpfs -o mode=755 none /run
    chown etcd /var/lib/etcd
    mkdir -p /etc/etcd /etc/bwe
    rm -f /etc/default/etcd
    hostname "$1"
    ln -s "$folder/tree/control" "$folder/$1/control"
    echo $BASHPID >"$folder/$1/pid"
    exec sleep infinity
}
export -f host
export folder

for number in 1 2 3; do
    ip netns add h$number
    ip link add to-h$number type veth peer name eth0 netns h$number
    ip link set to-h$number master br0 up
    ip -n h$number address add 10.0.0.$number/24 dev eth0
    ip -n h$number link set eth0 up
    ip -n h$number link set lo up
    nsenter --net=/run/netns/h$number unshare --mount --uts bash -ec "host h$number" &
done
until [ -e "$folder/h1/pid" ] && [ -e "$folder/h2/pid" ] && [ -e "$folder/h3/pid" ]; do
    sleep 0.1
done
touch "$folder/ready"
sleep 600
