# Makes a root in which there is neither the kit nor a repository, in namespaces of its own, and waits there: sh bare_root.sh FOLDER [ROOT].
# It has the folders of the system, or those of ROOT, and what is written there goes to memory. No network reaches it but its own loopback, which is
# down at first.
set -e
folder=$1
lower=${2-}
mount --make-rprivate /
mount -t tmpfs -o mode=755 tmpfs "$folder"
root=$folder/root
mkdir "$root"
for it in usr etc var; do
    mkdir -p "$folder/upper/$it" "$folder/scratch/$it" "$root/$it"
    mount -t overlay overlay -o "lowerdir=$lower/$it,upperdir=$folder/upper/$it,workdir=$folder/scratch/$it" "$root/$it"
done
for it in bin sbin lib lib32 lib64; do
    if [ -L "$lower/$it" ]; then
        cp -P "$lower/$it" "$root/$it"
    elif [ -d "$lower/$it" ]; then
        mkdir "$root/$it"
        mount --bind "$lower/$it" "$root/$it"
    fi
done
mount -t tmpfs -o mode=755 tmpfs "$root/usr/local"
mkdir -p "$root/proc" "$root/dev" "$root/root" "$root/home/user" "$root/run" "$root/usr/local/lib" "$root/usr/local/bin"
mkdir -m 1777 "$root/tmp"
chown 65534:65534 "$root/home/user" 2> /dev/null || true
mount --rbind /proc "$root/proc"
for it in null zero full random urandom; do
    : > "$root/dev/$it"
    mount --bind "/dev/$it" "$root/dev/$it"
done
ln -s /proc/self/fd "$root/dev/fd"
echo ready
exec chroot "$root" sleep 7200
