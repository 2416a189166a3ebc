"""What a station refuses before it serves, and how it says so: values of options, files that are none, profiles that no station can
serve, a state that cannot be kept. And starts that are refused use no incarnation up."""

import errno, os, resource, socket, subprocess, time
from rim.calls import CallFaults
from rim.host import Station, Wrong, free_port, need, sure, wait

LONGEST = 16_777_216
NOBODY = 65534
SPARSE = 1 << 40  # bytes that are on no disk
DANGER = "an old datagram could then drive an output"
BASE = "adapter 16 {adapter} 255.255.255.0 1 12 7 2 3\noutput 150 4 zero zero\ninput 100 4\n{described}heartbeat 152 153\n"
NO_PORT = "describe 1 50756d70 0 1000 13 02a1b2c3d4e5 60\n"
SCANNER = "scanner 32 {owner} 1 101 1000 1000\n"
OWNS = "slot {adapter} exclusive - 150 100 4 4 10000 10000 2 p2p - -\n"
ITSELF = "slot {owner} input - 152 100 0 4 10000 10000 2 p2p - -\n"


class Asked:
    """Runs the program at a host, and answers what it says."""

    def __init__(self, bench, host="adapter"):
        self.bench, self.at = bench, bench.network.at(host)

    def ends(self, *words, seconds=10, **how):
        """Status, standard output, and the lines of standard error."""
        how.setdefault("stdin", subprocess.DEVNULL)
        try:
            done = subprocess.run([*self.at, self.bench.program, *words], stdout=subprocess.PIPE, stderr=subprocess.PIPE, timeout=seconds, **how)
        except subprocess.TimeoutExpired:
            raise Wrong(f"eip_station {' '.join(words)} does not end") from None
        return done.returncode, done.stdout.decode(), done.stderr.decode().splitlines()

    def says(self, status, part, *words, **how):
        """One line with this part, and this status."""
        got, out, lines = self.ends(*words, **how)
        need((got, out, len(lines)) == (status, "", 1) and part in lines[0], f"eip_station {' '.join(words)}: status {got}, {lines}, and not {part!r}")
        return lines[0]


def run_words(bench):
    """A refused value names its option, itself and what is allowed. Help is behind each command, and = joins option and value."""
    asked, profile = Asked(bench), bench.file("adapter.profile")
    for option, value, allowed in (("--tcp", "0", "1 to 65535"), ("--udp", "65536", "1 to 65535"), ("--page", "-1", "1 to 65535"),
                                   ("--seconds", "soon", "1 to 1000000000"), ("--incarnation", "256", "1 to 255"),
                                   ("--inactivity", "3601", "0 to 3600"), ("--serial", "0", "1 to 4294967295"), ("--lose", "101", "0 to 100"),
                                   ("--delay", "60001", "0 to 60000"), ("--seed", "x", "0 to 18446744073709551615"), ("--name", "n" * 33, "1 to 32 bytes")):
        for words in [option, value], [f"{option}={value}"]:
            said = asked.says(2, allowed, "adapter", profile, *words)
            need(option in said and value in said, f"{words}: {said}")
        need(option in asked.says(2, allowed, "adapter", profile, option), f"{option} without a value")
    for words in ["adapter", profile, "--address", "10.0.0"], ["adapter", profile, "--page-address=10.0.0.256"], ["identity", "all"]:
        asked.says(4, "four numbers below 256", *words)
    sure(True, "a refused value names its option, itself, and the values that are allowed")
    usage = asked.ends("--help")
    for words in (["adapter"], ["adapter", profile], ["scanner", profile, "--seconds", "1"], ["plant"], ["replay"], ["pcap", "x"], ["explain"],
                  ["settle"], ["eds"], ["identity"], ["identity", "10.0.0.1"]):
        for word in "--help", "-h":
            need(asked.ends(*words, word) == usage and usage[0] == 0, f"{word} behind {words}")
    sure(usage[1].startswith("usage: eip_station"), "--help behind any command prints the help, with status 0")
    begin = time.monotonic()
    status, _, lines = asked.ends("adapter", profile, "--seconds=1", "--no-input", "--incarnation=77", f"--record={bench.file('joined.trace')}", "--name=a=b")
    need(0.9 < time.monotonic() - begin < 6 and status == 0 and "incarnation 77, record " in lines[0], f"joined options: {status}, {lines}")
    bench.replay_alone("joined")
    sure(os.path.exists(bench.file("joined.trace")), "an option and its value may be one word")
    gone(bench, asked)
    sure(closed(bench, asked, profile) == 0, "a closed standard input: a station with --no-input runs")


def gone(bench, asked):
    """The reader of the standard output has gone: the program ends, and says nothing of it."""
    trace = bench.file("joined.trace")
    for words in ["explain", trace], ["replay", trace], ["pcap", trace], ["--help"]:
        reader, writer = os.pipe()
        os.close(reader)
        done = subprocess.run([*asked.at, bench.program, *words], stdout=writer, stderr=subprocess.PIPE, stdin=subprocess.DEVNULL, timeout=20)
        os.close(writer)
        need(done.stderr == b"" and done.returncode in (0, 1), f"{words[0]} without a reader: {done.returncode}, {done.stderr}")
    for words in ["explain", trace], ["--help"], ["--version"]:
        with open("/dev/full", "wb") as full:
            done = subprocess.run([*asked.at, bench.program, *words], stdout=full, stderr=subprocess.PIPE, stdin=subprocess.DEVNULL, timeout=20)
        need(done.returncode == 1 and done.stderr != b"", f"{words[0]} to a full output: {done.returncode}, {done.stderr}")
    sure(True, "who reads no further gets no message")


def closed(bench, asked, profile):
    words = [*asked.at, bench.program, "adapter", profile, "--no-input", "--seconds", "1"]
    return subprocess.run(["sh", "-c", 'exec "$@" <&-', "sh", *words], stdout=subprocess.DEVNULL, stderr=subprocess.DEVNULL, timeout=20).returncode


def run_files(bench):
    """What is no regular file is not opened, and a file of no end is not read on."""
    asked = Asked(bench)
    fifo, sparse = bench.file("endless"), bench.file("sparse")
    os.mkfifo(fifo)
    with open(sparse, "wb") as file:
        file.truncate(SPARSE)
    commands = [["adapter"], ["scanner"], ["plant"], ["replay"], ["pcap"], ["explain"], ["settle"], ["eds"]]
    for words in commands:
        for path in fifo, "/dev/zero", bench.folder:
            said = asked.says(3, "is no regular file", *words, path)
            need(path in said, said)
        # (those two read line by line, and end at the first line, which is too long)
        why = "bad line 1" if words in (["replay"], ["pcap"]) else f"is longer than {LONGEST} bytes"
        asked.says(3, why, *words, sparse, preexec_fn=little)
    for path, why in ((fifo, "is no regular file"), ("/dev/zero", "is no regular file"), (sparse, "is longer than 4096 bytes")):
        said = asked.says(3, why, "adapter", bench.file("adapter.profile"), "--state", path, preexec_fn=little)
        need(path in said and DANGER in said, said)
    sure(True, "a FIFO, a device, a folder and a file of a terabyte are refused at once, as a profile, a trace, a plant and a state")
    with open(bench.file("adapter.profile")) as profile:
        trace = bench.write_exactly("events.profile", profile.read() + "tick 1\n")
    asked.says(3, f"{trace} has events behind the profile", "adapter", trace)
    asked.says(3, f"{trace} has events behind the profile", "plant", bench.write_exactly("events.plant", "device a events.profile\n"))
    for path in fifo, sparse:
        os.remove(path)


def little():
    """So much memory is enough for what is read no further than its limit."""
    resource.setrlimit(resource.RLIMIT_AS, (512 << 20, 512 << 20))


def run_profiles_unserved(bench):
    """A TCP port of 0, one output with two owners, a scanner as its own target, two devices at one address: with line and word."""
    asked = Asked(bench)
    address = bench.address
    bench.write("no_port.profile", BASE.format(described=NO_PORT, **address))
    bench.write("other.profile", BASE.format(described="", adapter=address["reader"]))
    bench.write("twice.profile", (SCANNER + OWNS + "# \n" + OWNS.replace("100", "101")).format(**address))
    bench.write("itself.profile", (SCANNER + OWNS + ITSELF).format(**address))
    file = bench.file
    asked.says(3, "no_port.profile: line 4: word 4: ", "adapter", file("no_port.profile"))
    asked.says(3, f"twice.profile: line 4: word 5: slot 1 owns the output 150 of {address['adapter']}, which has one owner: slot 0 in line 2",
               "scanner", file("twice.profile"))
    asked.says(3, f"itself.profile: line 3: word 2: the target of slot 1 is {address['owner']}", "scanner", file("itself.profile"))
    asked.says(3, f"owner.profile: line 2: word 2: the target of slot 0 is {address['adapter']}", "scanner", file("owner.profile"), "--address", address["adapter"])
    for name, text, part in (
            ("no_port", "device a no_port.profile\n", "no_port.profile: line 4: word 4: "),
            ("twice", "device a twice.profile\n", "twice.profile: line 4: word 5: "),
            ("itself", f"device a adapter.profile\ndevice s owner.profile {address['adapter']}\n", "owner.profile: line 2: word 2: "),
            ("one_node", "# two\n\ndevice a adapter.profile\nlose 1\n  device b adapter.profile\n", "one_node.plant: line 5: word 3: b has the address of a in line 3"),
            ("one_word", f"device a adapter.profile\ndevice b other.profile {address['adapter']}\n", "one_word.plant: line 2: word 4: "),
            ("same_word", "device a adapter.profile 10.0.0.1\ndevice b owner.profile 10.0.0.1\n", "same_word.plant: line 2: word 4: ")):
        bench.write(f"{name}.plant", text)
        asked.says(3, part, "plant", file(f"{name}.plant"))
    for profile in "no_port", "twice", "itself":  # (they are profiles all the same)
        with open(file(f"{profile}.profile"), "rb") as text:
            need(subprocess.run([bench.line, "step"], stdin=text, stdout=subprocess.DEVNULL).returncode == 0, f"eip_line step takes {profile}")
    sure(True, "what no station can serve is refused with line and word, by a station and by a plant")


def run_state(bench):
    """A start that is refused uses no incarnation up, and a state that cannot be written names the danger."""
    asked = Asked(bench)
    bench.write("counted.profile", BASE.format(described="", **bench.address))
    profile, state = bench.file("counted.profile"), bench.file("counted.profile.state")
    begun = lambda: next(line for line in asked.ends("adapter", profile, "--seconds", "1", "--no-input")[2] if "incarnation" in line)
    need("incarnation 16," in begun(), "the first start has the incarnation of the profile")
    holder = bench.adapter(log="holder")
    need(bench.address["adapter"] in asked.says(5, "the TCP port 44818 of", "adapter", profile), "a port in use is named with its address")
    asked.says(5, f"the UDP port 2222 of {bench.address['adapter']}", "adapter", profile, "--tcp", str(free_port()))
    need(holder.end() == 0, "the holder of the ports ends with status 0")
    asked.says(6, "the record cannot be written", "adapter", profile, "--record", bench.file("none/x.trace"))
    with bench.network.inside("adapter"), socket.socket() as page:
        page.bind((bench.address["adapter"], 0))
        page.listen()
        port = page.getsockname()[1]
        got, _, lines = asked.ends("adapter", profile, "--page", str(port), "--page-address", bench.address["adapter"])
        need(got == 5 and f"the TCP port of the page {port} of" in lines[-1], f"a page's port in use: {got}, {lines}")
    need(os.listdir(os.path.dirname(state)).count("counted.profile.state.new") == 0, "nothing is left beside the state")
    faults = CallFaults(bench, "medium")
    faults.set(sync=errno.EIO)
    words, env = ("adapter", profile, "--seconds", "1", "--no-input"), {**os.environ, **dict(it.split("=", 1) for it in faults.env())}
    asked.says(6, DANGER, *words, env=env)
    sure("incarnation 17," in begun(), "five starts that are refused use no incarnation up, one of them since its state would not be on the medium")
    faults.set()
    status, before = asked.ends(*words, env=env)[0], faults.synced()
    sure((status, before) == (0, 4), f"a state is on the medium, and so is its folder, which has its new name, at the start and at the end: {before} of 4")
    folder = bench.file("closed")
    os.mkdir(folder)
    os.rename(profile, os.path.join(folder, "counted.profile"))
    os.chmod(bench.folder, 0o755)
    os.chmod(folder, 0o555)
    said = asked.says(6, DANGER, "adapter", os.path.join(folder, "counted.profile"), preexec_fn=nobody)
    sure("--state FILE" in said and "--incarnation N" in said, f"a state that cannot be written: {said}")
    os.chmod(folder, 0o755)


def nobody():
    if os.getuid() == 0:
        os.setgid(NOBODY)
        os.setuid(NOBODY)


def no_threads():
    nobody()
    resource.setrlimit(resource.RLIMIT_NPROC, (1, 1))


def run_no_thread(bench):
    """A thread that the system refuses is said so."""
    os.chmod(bench.folder, 0o755)
    plant = bench.write_exactly("threads.plant", "device a adapter.profile\n")
    for words in ["adapter", bench.file("adapter.profile"), "--incarnation", "3"], ["plant", plant]:
        Asked(bench).says(7, "the system refuses a thread", *words, preexec_fn=no_threads)
    sure(True, "a thread that the system refuses is said so, by a station and by a plant")


def run_reasons(bench):
    """Why a slot is not opened is said in the words of explain, behind the line of the notice."""
    adapter, first = bench.adapter(log="owned"), bench.scanner("owner", profile="owner", log="first_owner")
    wait(first.is_established, "an owner is established")
    bench.write("second.profile", "scanner 64 {reader} 1 103 1000 1000\nslot {adapter} exclusive - 150 100 4 4 10000 10000 2 multicast - -\n".format(**bench.address))
    second = Station(bench, "reader", "scanner", bench.file("second.profile"), "--record", bench.file("second.trace"), log="second_owner")
    second.call("start 0", "mode run")
    words = "slot 0 is not opened: general status 0x01 (connection failure), extended status 0x0106 (ownership conflict)"
    wait(lambda: f"# {words}" in second.lines(), lambda: f"the reason in words: {second.lines()}")
    lines = second.lines()
    before = lines[:lines.index(f"# {words}")]
    need(any(line.endswith(" note refused 0 cip 01 0106") for line in before), f"the words are behind the notice: {lines}")
    need(second.end() == 0, "the second owner ends with status 0")
    told = subprocess.run([bench.program, "explain", bench.file("second.trace")], stdout=subprocess.PIPE).stdout.decode()
    sure(words in told, f"a station says why a slot is not opened, as explain does: {words}")
    for station in first, adapter:
        need(station.end() == 0, f"the station {station.name} ends with status 0")
    bench.clear()
