"""Machines that QEMU emulates, or KVM runs, with Debian's kernel and busybox, for clients/check-linux. They have QEMU's own user network alone: a guest reaches this machine's loopback as
10.0.2.2, and a port of this loopback can lead to a guest's. Or they have a tap device, where who made it is 10.0.2.2."""

import contextlib
import os
import re
import shutil
import stat
import subprocess
import time
from struct import pack

PACKAGES = {"qemu-system-x86_64": "qemu-system-x86", "busybox": "busybox-static", "modprobe": "kmod", "dpkg": "dpkg"}
PATH = os.environ["PATH"] + ":/sbin:/usr/sbin"
ALWAYS = ("virtio_pci", "virtio_net", "crc32c_generic")
BEGIN = """#!/bin/busybox sh
export PATH=/bin
mount -t proc none /proc; mount -t sysfs none /sys; mount -t devtmpfs none /dev; mount -t tmpfs none /tmp
for module in {modules}; do insmod /modules/$module; done
ip link set lo up; ip link set eth0 up; ip addr add 10.0.2.15/24 dev eth0
"""
END = """
echo GUEST READY
sleep 3000
"""


class Kernel:
    """Debian's kernel, which is fetched into the folder, where it isn't there."""

    def __init__(self, folder):
        self.folder = os.path.realpath(folder)
        if not os.path.isdir(f"{self.folder}/lib/modules"):
            os.makedirs(self.folder, exist_ok=True)
            told = subprocess.run(["apt-cache", "depends", "linux-image-amd64"], stdout=subprocess.PIPE, text=True, check=True).stdout
            subprocess.run(["apt-get", "-q", "download", re.search(r"Depends: (\S+)", told)[1]], cwd=self.folder, check=True, stdout=subprocess.DEVNULL)
            archive, = (name for name in os.listdir(self.folder) if name.endswith(".deb"))
            subprocess.run(["dpkg", "-x", f"{self.folder}/{archive}", self.folder], check=True)
            os.remove(f"{self.folder}/{archive}")
        self.version, = os.listdir(f"{self.folder}/lib/modules")
        self.image = f"{self.folder}/boot/vmlinuz-{self.version}"
        if not os.path.exists(f"{self.folder}/lib/modules/{self.version}/modules.dep"):
            subprocess.run(["/sbin/depmod", "-b", self.folder, self.version], check=True)

    def modules(self, names):
        """The files of modules, each behind those that it needs."""
        found = {}
        for name in names:
            told = subprocess.run(["/sbin/modprobe", "-d", self.folder, "-S", self.version, "--show-depends", name], stdout=subprocess.PIPE, text=True, check=True).stdout
            found |= {line.split()[1]: None for line in told.splitlines() if line.startswith("insmod")}
        return list(found)


def archived(files):
    """A cpio archive (newc) of names, modes and bytes."""
    out = bytearray()
    for number, (name, mode, data) in enumerate([*files, ("TRAILER!!!", 0, b"")], 1):
        spelled = name.encode() + b"\0"
        fields = (number, mode, 0, 0, 1, 0, len(data), 0, 0, 0, 0, len(spelled), 0)
        out += b"070701" + b"".join(b"%08x" % field for field in fields) + spelled
        out += bytes(-len(out) % 4) + data
        out += bytes(-len(out) % 4)
    return bytes(out)


def libraries(program):
    """The libraries that a program of this machine is linked with, by their paths."""
    told = subprocess.run(["ldd", program], stdout=subprocess.PIPE, text=True, check=True).stdout
    return re.findall(r"(/\S+) \(0x", told)


def initramfs(kernel, script, modules, files, programs):
    """What the guest begins with: busybox, modules, files beside its /init, programs of this machine with their libraries, and the script."""
    paths = kernel.modules((*ALWAYS, *modules))
    regular = lambda name, path, mode=0o755: (name, stat.S_IFREG | mode, open(path, "rb").read())
    found = {name: shutil.which(name, path=PATH) for name in programs}
    linked = sorted({path for program in found.values() for path in libraries(program)})
    folders = {parent for path in linked for parent in [path[1:].rsplit("/", at)[0] for at in range(1, path.count("/"))]}
    entries = [(name, stat.S_IFDIR | 0o755, b"") for name in ("bin", "dev", "proc", "sys", "tmp", "modules", *sorted(folders))]
    entries.append(regular("bin/busybox", "/bin/busybox"))
    commands = subprocess.run(["/bin/busybox", "--list"], stdout=subprocess.PIPE, text=True, check=True).stdout.split()
    entries += [(f"bin/{name}", stat.S_IFLNK | 0o777, b"busybox") for name in commands if name not in ("busybox", *programs)]
    entries += [regular(f"bin/{name}", path) for name, path in found.items()] + [regular(path[1:], path) for path in linked]
    entries += [regular(f"modules/{os.path.basename(path)}", path) for path in paths] + [regular(os.path.basename(path), path) for path in files]
    begin = BEGIN.format(modules=" ".join(map(os.path.basename, paths)))
    entries.append(("init", stat.S_IFREG | 0o755, (begin + script + END).encode()))
    return archived(entries)


def accelerators():
    """The ways to run a guest, the best first: KVM where the processor has virtual machines. A KVM without such a processor is there, too (kvm_pvm), and takes minutes to begin a usual kernel."""
    with open("/proc/cpuinfo", encoding="utf-8") as file:
        has_machines = re.search(r"^flags\s*:.* (vmx|svm)\b", file.read(), re.M)
    return [*(["kvm"] if has_machines and os.access("/dev/kvm", os.R_OK | os.W_OK) else []), "tcg,thread=multi"]


class Machine:
    """A guest at work."""

    def __init__(self, process, folder):
        self.process, self.folder = process, folder

    def told(self):
        """The text of its console until now."""
        with contextlib.suppress(FileNotFoundError), open(f"{self.folder}/console.txt", errors="replace") as file:
            return file.read()
        return ""

    def done(self, seconds):
        """The text of its console once the script is done."""
        until = time.monotonic() + seconds
        while "GUEST READY" not in (told := self.told()):
            if self.process.poll() is not None or time.monotonic() > until:
                raise TimeoutError(f"the guest isn't ready: {told[-1500:]}")
            time.sleep(1)
        return told


@contextlib.contextmanager
def machine(kernel, folder, script, modules, files=(), programs=(), forward=None, tap=None, processors=4):
    """A guest that begins to do the script. `forward` is a port of this machine's loopback, and one of the guest's; `tap` is a device of this machine that it has instead of the user network."""
    with open(f"{folder}/initramfs", "wb") as file:
        file.write(initramfs(kernel, script, modules, files, programs))
    # What another guest of this folder said isn't this one's.
    with contextlib.suppress(FileNotFoundError):
        os.remove(f"{folder}/console.txt")
    lead = f",hostfwd=tcp:127.0.0.1:{forward[0]}-:{forward[1]}" if forward else ""
    network = f"tap,id=network,ifname={tap},script=no,downscript=no" if tap else f"user,id=network{lead}"
    words = ["qemu-system-x86_64", *(word for way in accelerators() for word in ("-accel", way)), "-M", "q35", "-cpu", "max", "-m", "1024", "-smp", str(processors)]
    words += ["-display", "none", "-nodefaults", "-no-reboot", "-serial", f"file:{folder}/console.txt", "-netdev", network, "-device", "virtio-net-pci,netdev=network"]
    words += ["-kernel", kernel.image, "-initrd", f"{folder}/initramfs", "-append", "console=ttyS0 quiet panic=-1 no_timer_check"]
    process = subprocess.Popen(["nice", "-n", "5", *words], stdin=subprocess.DEVNULL)
    try:
        yield Machine(process, folder)
    finally:
        process.kill()
        process.wait()


@contextlib.contextmanager
def guest(*what, seconds=300, **how):
    """A guest that has done the script, and its console's text."""
    with machine(*what, **how) as it:
        yield it.done(seconds)
