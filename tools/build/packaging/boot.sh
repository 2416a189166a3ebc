# Starts the system of a bare root: sh boot.sh ROOT, in the mounts and the network of bare_root.sh. systemd is its first process, in a control group and
# in namespaces of its own. It can set nothing of the kernel: /proc/sys and /sys are read-only, and it loads no module and sets no clock.
# Prints the process of which the system is a child. Ends when the system is off, or by TERM.
set -e
root=$1
if [ "${2-}" != inside ]; then
    groups=$root/../groups
    mkdir -p "$groups"
    mount -t cgroup2 cgroup2 "$groups"
    above=$groups$(sed -n 's/^0:://p' /proc/self/cgroup)
    own=$above/eip-release-test.$$
    mkdir "$own"
    echo $$ > "$own/cgroup.procs"
    # (--kill-child: with its parent the whole system ends)
    setpriv --pdeathsig KILL --bounding-set=-sys_module,-sys_time,-sys_rawio,-syslog \
        unshare --mount --pid --ipc --uts --cgroup --fork --kill-child sh "$0" "$root" inside > /dev/null 2>&1 &
    system=$!
    trap 'kill -KILL $system' TERM
    echo "system $system"
    while kill -0 $system 2> /dev/null; do wait $system || true; done
    echo $$ > "$above/cgroup.procs"
    find "$own" -depth -type d -exec rmdir {} \;
    umount "$groups"
    exit
fi
mount --rbind "$root" "$root"
cd "$root"
mkdir -p sys dev old
mount -t proc proc proc
mount --bind proc/sys proc/sys
mount -o remount,bind,ro proc/sys
mount -t sysfs -o ro sysfs sys
mount -t cgroup2 cgroup2 sys/fs/cgroup
mount -t tmpfs -o mode=755 tmpfs run
mount -t tmpfs -o mode=1777 tmpfs tmp
mount -t tmpfs -o mode=755 tmpfs dev
for it in null zero full random urandom tty; do
    : > "dev/$it"
    mount --bind "/dev/$it" "dev/$it"
done
mkdir dev/pts dev/shm
mount -t devpts -o newinstance,ptmxmode=0666 devpts dev/pts
mount -t tmpfs -o mode=1777 tmpfs dev/shm
ln -s pts/ptmx dev/ptmx
ln -s /proc/self/fd dev/fd
pivot_root . old
umount -l old
exec env -i container=eip PATH=/usr/sbin:/usr/bin /usr/lib/systemd/systemd < /dev/null
