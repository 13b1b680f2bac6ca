"""What loads and lines cost, in runs in which the programs take turns, so that a noisy moment meets all of them.

Time is that of the processor, and the least of some rounds.
"""

from programs import OURS, Session, TooLong

ROUNDS = 5
ENOUGH_SECONDS, MOST_LINES = 0.005, 2000  # of one turn
LONG, LONG_ROUNDS = 0.3, 2  # seconds of a turn, and how many of those are enough
LONG_LOAD = 2.0


def loads(programs, table, turns=ROUNDS):
    """The least seconds that each program took to load a table, and a session of each; none of a program that takes too long."""
    least, sessions = {}, {}
    for turn in range(turns):
        for name, path in programs.items():
            if turn and least.get(name, LONG_LOAD) >= LONG_LOAD:
                continue
            if name in sessions:
                sessions.pop(name).end()
            try:
                sessions[name] = Session(path, table)
            except TooLong:
                print(f"passed over: {name} over {table}, whose load takes too long", flush=True)
                continue
            least[name] = min(sessions[name].load, least.get(name, sessions[name].load))
    return least, sessions


def text_of(lines, count):
    """So many lines as bytes, from the first one on and again."""
    times, rest = divmod(count, len(lines))
    return "".join(f"{line}\n" for line in lines * times + lines[:rest]).encode()


def turn_of(session, lines):
    """As many lines as take long enough, up to a maximum, and how long they took."""
    count = 1
    while True:
        text = text_of(lines, count)
        seconds = session.ask(text)
        if seconds >= ENOUGH_SECONDS or count >= MOST_LINES:
            return text, count, seconds
        count = min(MOST_LINES, count * max(2, min(20, int(ENOUGH_SECONDS / max(seconds, 1e-6)))))


def costs(sessions, lines):
    """The seconds that a line takes in each session."""
    turns = {name: turn_of(session, lines) for name, session in sessions.items()}
    least = {name: seconds for name, (_, _, seconds) in turns.items()}
    for round in range(ROUNDS):
        for name, (text, _, seconds) in turns.items():
            if seconds < LONG or round < LONG_ROUNDS - 1:
                least[name] = min(least[name], sessions[name].ask(text))
    return {name: least[name] / count for name, (_, count, _) in turns.items()}


def only_ours(sessions):
    return {OURS: sessions[OURS]}


def ended(sessions):
    """Ends all, and returns the memory of each at its end."""
    memory = {name: session.memory() for name, session in sessions.items()}
    for session in sessions.values():
        session.end()
    return memory
