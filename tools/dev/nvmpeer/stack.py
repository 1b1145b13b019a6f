"""The manager over its devices: requests, jobs, turns, and the one history."""
from collections import namedtuple

from nvmpeer.banks import Banks
from nvmpeer.flash import DONE, FAILED, OFF
from nvmpeer.slots import Slots
from nvmpeer.texts import INVALID, mark_shown, shown

MOST_ENTRIES = 100_000
FINE, NOT_OK, PENDING, NEVER, SKIPPED, INVALIDATED, CANCELED, ONE_COPY, RESTORED = range(9)
BAD = (NOT_OK, NEVER, INVALIDATED, ONE_COPY)
IDLE, WORKED, PICKED, POSTED = "idle", "worked", "picked", "posted"
# the refusals that each request is tested for
ALL = (2, 10, 11)
ENDS = (16, 17)
TESTED = {"read": (1, *ALL, *ENDS), "readram": (1, 6, *ALL, *ENDS), "write": (1, 3, 5, *ALL, 12, 13, 14, *ENDS),
          "writeram": (1, 3, 6, *ALL, 12, 13, 14, *ENDS), "restore": (1, 3, 7, *ALL, *ENDS), "restoreram": (1, 3, 6, 7, *ALL, *ENDS),
          "erase": (1, 3, 8, *ALL, 12, 13, 14, *ENDS), "invalidate": (1, 3, *ALL, 12, 13, 14, *ENDS), "setindex": (1, 3, 4, *ALL),
          "getindex": (1, 2, 3), "protect": (1, 3, 9, *ALL), "lock": (1, 3, *ALL), "setram": (1, 3, 6, *ALL), "ram": (1, 3, 5, 6, *ALL),
          "status": (1, 2), "readall": (2, 10, 17), "writeall": (2, 10, 17), "cancel": (2, 15)}
JOBS = {"read": "read", "readram": "read", "write": "write", "writeram": "write", "restore": "restore", "restoreram": "restore",
        "erase": "erase", "invalidate": "invalidate"}


class Full(Exception):
    """The next entry doesn't fit."""


class FlashFault(Exception):
    """A start-up failed."""


class State:
    """A block's state behind a start-up."""

    def __init__(self, block, is_stored):
        self.status, self.index, self.locked = FINE, 0, False
        self.protected = is_stored if block.once else block.protected
        self.ram, self.valid, self.changed = bytes(block.length), False, False


class Mirror:
    """The application's side of a synchronized block."""

    def __init__(self, block):
        self.content, self.number, self.refused, self.last = block.defaults or bytes(block.length), 0, 0, {}

    def store(self, caller, content):
        self.content, self.number = content, self.number + 1
        self.last[caller] = self.number

    def copy(self):
        """Whether a copy isn't refused."""
        self.refused -= (was := self.refused > 0)
        return not was


class Job:
    """A single job, or a member of a sweep."""

    def __init__(self, block, kind, index, uses_ram, number, reserved, content=None, store=0, immediate=False):
        self.block, self.kind, self.index, self.uses_ram, self.number = block, kind, index, uses_ram, number
        self.reserved, self.content, self.store, self.taken_store, self.immediate = reserved, content, store, 0, immediate
        self.own = None if uses_ram else content
        self.was_picked = self.is_member = False
        self.extra = 2 if immediate else 0

    def pick(self):
        """What a Pick begins anew: the device operations."""
        self.was_picked, self.copy, self.tries, self.outcomes, self.is_open, self.ended = True, 0, 0, [], False, None


class Sweep:
    def __init__(self, kind, members, reserved):
        self.kind, self.members, self.reserved = kind, members, reserved
        self.same = self.is_bad = self.is_canceled = False


class Stack:
    def __init__(self, config, flashes, cap=MOST_ENTRIES):
        self.config, self.cap, self.lines = config, cap, []
        self.devices = [Banks(flashes[0], config.lengths(0), config.reserve, config.banks)]
        if len(flashes) > 1:
            self.devices.append(Slots(flashes[1], config.lengths(1)))
        self.mirrors = {it.id: Mirror(it) for it in config.blocks.values() if it.ram == "sync"}

    def device(self, block):
        return self.devices[self.config.blocks[block].device]

    def ops(self):
        return sum(it.ops for it in self.devices)

    def faults(self):
        return sum(it.faults for it in self.devices)

    def add(self, line):
        """A driver entry."""
        self.lines.append(f"{line} ops {self.ops()}")

    # START-UP
    def start(self):
        if len(self.lines) + 2 > self.cap:
            raise Full
        if not all([it.start() for it in self.devices]):
            raise FlashFault
        marks = {}
        for block in self.config.blocks.values():
            for number in block.numbers():
                mark = self.mark_at(block.id, number)
                if mark is not None:
                    marks[number] = mark
        stored = {number // 64 for number in marks}
        self.states = {it.id: State(it, it.id in stored) for it in self.config.blocks.values()}
        self.all_status, self.jobs, self.hand, self.multi, self.sweep, self.off, self.asked = FINE, [], None, None, None, False, 0
        self.reserved_off = 1
        self.add(" ".join([f"found {len(marks)}", *(f"{it // 64}.{it % 64} {mark_shown(mark)}" for it, mark in marks.items())]))

    def mark_at(self, block, number):
        """What a device holds, by a read of it where it is a content."""
        device = self.device(block)
        if device.kind(number) != 1:
            return INVALID if device.kind(number) == 2 else None
        device.begin("read", number)
        device.turn()
        if device.outcome == FAILED:
            raise FlashFault
        return device.outcome

    # REQUESTS
    def reserved(self):
        return self.reserved_off + sum(it.reserved for it in self.pending()) + (self.multi.reserved if self.multi else 0)

    def pending(self):
        return self.jobs + ([self.hand] if self.hand and self.hand not in self.jobs and not self.hand.is_member else [])

    def ask(self, caller, step, block=0, given=None, text=None):
        """A request; given is its content, index, flag or None."""
        if len(self.lines) + self.reserved() + 1 > self.cap:
            raise Full
        store = self.mirrors[block].last.get(caller, 0) if step == "writeram" and block in self.mirrors else 0
        words = [step] if step in ("readall", "writeall", "cancel") else [step, str(block)]
        words += [f"store {store}"] if store else [shown(given)] if isinstance(given, bytes) else [] if given is None else [str(int(given))]
        refusal = next((it for it in sorted(TESTED[step]) if self.holds(it, step, block, given)), None)
        reply = f"refused {refusal}" if refusal else self.accept(step, block, given, store)
        self.lines.append(f"ask {caller} {' '.join(words)} -> {reply}")

    def holds(self, refusal, step, block, given):
        """Whether a refusal's cause holds."""
        it, state = self.config.blocks.get(block), self.states.get(block)
        if refusal == 1:
            return it is None and not (step == "status" and block == 0)
        if refusal == 2:
            return self.off
        if refusal == 3:
            return not it.is_dataset if step.endswith("index") else it.is_dataset if step.startswith("restore") else block == 1
        if refusal == 4:
            return given >= it.nv + len(it.rom)
        if refusal == 5:
            return len(given) != it.length
        if refusal == 6:
            return it.ram == "none" or block == 1 and step in ("readram", "restoreram")
        if refusal in (7, 8, 9):
            return (it.defaults is None, it.priority != 0, it.once)[refusal - 7]
        if refusal == 10:
            return self.multi is not None
        if refusal == 11:
            return any(job.block == block for job in self.pending())
        if refusal in (12, 13):
            return state.locked if refusal == 12 else state.protected
        if refusal == 14:
            return it.is_dataset and state.index >= it.nv
        if refusal == 15:
            return not self.multi or self.multi.kind != "writeall" or self.multi.is_canceled
        if refusal == 16:
            is_immediate = self.is_immediate(step, block)
            waiting = sum(not job.was_picked and job.immediate == is_immediate for job in self.jobs)
            return waiting >= (self.config.immediate if is_immediate else self.config.standard)
        return len(self.lines) + self.reserved() + 1 + self.most_entries(step, block) > self.cap

    def is_immediate(self, step, block):
        return JOBS.get(step) == "write" and self.config.blocks[block].priority == 0

    def members(self, kind):
        ids = [it.id for it in self.config.blocks.values() if it.id != 1 and getattr(it, kind)]
        return [1, *ids] if kind == "readall" else [*ids, 1]

    def most_entries(self, step, block):
        """The entries that are reserved for a job."""
        if step in ("readall", "writeall"):
            return 2 + sum(self.most_of_member(step, it) for it in self.members(step))
        if JOBS[step] in ("read", "restore"):
            return 2
        return 2 + self.config.blocks[block].copies + (2 if self.is_immediate(step, block) else 0)

    def most_of_member(self, kind, block):
        return 2 if kind == "readall" else 2 + self.config.blocks[block].copies

    def accept(self, step, block, given, store):
        state = self.states.get(block)
        if step in JOBS:
            uses_ram = step.endswith("ram")
            self.jobs.append(Job(block, JOBS[step], state.index, uses_ram, self.asked, self.most_entries(step, block), given, store,
                                 self.is_immediate(step, block)))
            state.status = PENDING
            self.asked += 1
        elif step in ("readall", "writeall"):
            self.multi, self.all_status = Sweep(step, self.members(step), self.most_entries(step, block)), PENDING
        elif step == "cancel":
            self.multi.is_canceled = True
        elif step == "status":
            return f"status {state.status if block else self.all_status}"
        elif step == "getindex":
            return f"index {state.index}"
        elif step == "setram":
            state.valid = state.changed = given
        else:
            name = {"setindex": "index", "protect": "protected", "lock": "locked", "ram": "ram"}[step]
            setattr(state, name, given)
        return "ok"

    # TURNS
    def turn(self):
        if self.off:
            return OFF
        job = self.hand
        if job and job.ended:
            return self.post(job, *job.ended)
        urgent = min((it for it in self.jobs if it.immediate and it is not job), key=lambda it: it.number, default=None)
        if job and urgent and not job.immediate:
            self.device(job.block).cancel()
            job.reserved += urgent.extra
            urgent.reserved -= urgent.extra
            return self.pick(urgent)
        if job:
            return self.work(job)
        if self.sweep:
            return self.sweep_on()
        if waiting := urgent or min(self.jobs, key=lambda it: (self.config.blocks[it.block].priority, it.number), default=None):
            return self.pick(waiting)
        if self.multi:
            self.sweep = self.multi
            self.sweep.reserved -= 1
            self.add(f"pick 0 {self.sweep.kind}")
            return PICKED
        if device := next((it for it in self.devices if it.is_switching()), None):
            return self.worked(device.turn())
        return IDLE

    def worked(self, turned):
        if turned != OFF:
            return WORKED
        self.off, self.reserved_off = True, 0
        self.add("off")
        return OFF

    def pick(self, job):
        self.hand = job
        again = job.was_picked
        job.pick()
        job.reserved -= 1
        said = job.kind
        if job.kind == "write":
            taken = self.take(job) if not again or job.content is None else None
            said = f"write refused {taken}" if taken else f"write {shown(job.content)}" + (f" store {job.taken_store}" if job.taken_store else "")
            job.ended = (NOT_OK, None) if taken else None
        if not job.ended:
            job.ended = self.at_once(job)
        self.add(f"pick {job.block} {said}")
        return PICKED

    def take(self, job):
        """Takes the content of a write at its Pick; gives the number of refused copies where none came."""
        block = self.config.blocks[job.block]
        if not job.uses_ram:
            job.content = job.own
        elif job.block not in self.mirrors:
            job.content = self.states[job.block].ram
        else:
            mirror = self.mirrors[job.block]
            if not any(mirror.copy() for _ in range(block.repeats + 1)):
                return block.repeats + 1
            job.content, job.taken_store = mirror.content, mirror.number
        return None

    def at_once(self, job):
        """The end of a job without a device operation, or None."""
        block = self.config.blocks[job.block]
        if job.kind == "restore":
            return FINE, block.defaults
        if job.kind == "read" and block.is_dataset and job.index >= block.nv:
            return FINE, block.rom[job.index - block.nv]
        return None

    def work(self, job):
        device, block = self.device(job.block), self.config.blocks[job.block]
        index = job.index if block.is_dataset else job.copy
        number = 64 * job.block + index
        if not job.is_open:
            device.begin(job.kind, number, job.content if job.kind == "write" else b"", job.immediate)
            job.is_open = True
        if device.turn() == OFF:
            return self.worked(OFF)
        if device.job:
            return WORKED
        job.is_open = False
        if device.outcome == FAILED and job.tries < (block.reads if job.kind == "read" else block.writes):
            job.tries += 1
            return WORKED
        if device.outcome == DONE and job.kind != "read":
            job.reserved -= 1
            mark = {"write": job.content, "invalidate": INVALID, "erase": None}[job.kind]
            self.add(f"wrote {job.block}.{index} {mark_shown(mark)}")
        job.outcomes.append(device.outcome)
        job.tries = 0
        job.copy += 1
        is_read_on = job.kind != "read" or not (isinstance(device.outcome, bytes) or device.outcome == INVALID)
        if job.copy == block.copies or not is_read_on:
            job.ended = self.read_result(block, job.outcomes) if job.kind == "read" else self.write_result(job.outcomes)
        return WORKED

    def read_result(self, block, outcomes):
        """The result of a read and what is given, by what each copy gave."""
        first, last = outcomes[0], outcomes[-1]
        if isinstance(last, bytes):
            return (ONE_COPY if first == FAILED and len(outcomes) > 1 else FINE), last
        if last == INVALID:
            return INVALIDATED, None
        if block.defaults is not None:
            return RESTORED, block.defaults
        return (NEVER if all(it is None for it in outcomes) else NOT_OK), None

    def write_result(self, outcomes):
        done = outcomes.count(DONE)
        return (FINE if done == len(outcomes) else ONE_COPY if done else NOT_OK), None

    def post(self, job, result, given):
        """A job ends: what is given goes to RAM where it is read to that."""
        if job.is_member and self.sweep.kind == "readall" and job.block == 1:
            own = self.config.id.to_bytes(2, "big")
            self.sweep.same = result in (FINE, ONE_COPY) and given == own
            result, given = (result, given) if self.sweep.same else (RESTORED, own)
        was = self.states[job.block]
        result, given, refused = self.give(job.block, job.kind, job.uses_ram, result, given)
        if job.kind == "write" and result in (FINE, ONE_COPY):
            was.protected |= self.config.blocks[job.block].once
        self.end_post(job.block, result, given, refused)
        if job.is_member:
            self.sweep.is_bad |= result in BAD
            self.sweep.reserved -= self.most_of_member(self.sweep.kind, job.block)
        else:
            self.jobs.remove(job)
        self.hand = None
        return POSTED

    def give(self, block, kind, uses_ram, result, given):
        """Copies what was read or restored to RAM, and notes the RAM's state: the result, what was given, and refused copies."""
        state, refused = self.states[block], 0
        if uses_ram and given is not None and block in self.mirrors:
            repeats = self.config.blocks[block].repeats
            if not any(self.mirrors[block].copy() for _ in range(repeats + 1)):
                result, given, refused = NOT_OK, None, repeats + 1
        if not uses_ram:
            return result, given, refused
        if given is not None:
            state.ram = given
        if kind == "restore" and result == FINE or kind == "read" and result == RESTORED:
            state.valid = state.changed = True
        elif kind == "read":
            state.valid, state.changed = result in (FINE, ONE_COPY), False
        elif kind == "write" and result in (FINE, ONE_COPY):
            state.valid, state.changed = True, False
        return result, given, refused

    def end_post(self, block, result, given, refused):
        if block:
            self.states[block].status = result
        said = f" data {shown(given)}" if given is not None else f" refused {refused}" if refused else ""
        self.add(f"post {block} {result}{said}")

    # SWEEPS
    def sweep_on(self):
        sweep = self.sweep
        if not sweep.members or sweep.is_canceled:
            result = CANCELED if sweep.is_canceled else NOT_OK if sweep.is_bad else FINE
            self.all_status, self.multi, self.sweep = result, None, None
            self.end_post(0, result, None, 0)
            return POSTED
        block = sweep.members.pop(0)
        it, state = self.config.blocks[block], self.states[block]
        ended = None
        is_rom = it.is_dataset and state.index >= it.nv
        if sweep.kind == "writeall" and (state.locked or state.protected or is_rom or not (state.valid and state.changed)):
            ended = SKIPPED, None
        elif sweep.kind == "readall" and not (block == 1 or sweep.same or it.resistant):
            ended = (RESTORED, it.defaults) if it.defaults is not None else (NEVER, None)
        if ended:
            result, given, refused = self.give(block, "none" if ended[0] == SKIPPED else "read", True, *ended)
            self.end_post(block, result, given, refused)
            sweep.is_bad |= result in BAD
            sweep.reserved -= self.most_of_member(sweep.kind, block)
            return POSTED
        state.status = PENDING
        job = Job(block, "read" if sweep.kind == "readall" else "write", state.index, True, 0, 0)
        job.is_member = True
        return self.pick(job)

    # STEPS
    def turns(self, count):
        for _ in range(count):
            if self.turn() in (IDLE, OFF):
                return

    def drain(self):
        while True:
            faults, hand = self.faults(), self.hand
            turned = self.turn()
            if turned in (IDLE, OFF) or not hand and self.faults() > faults:
                return


Step = namedtuple("Step", "line caller word block given")
