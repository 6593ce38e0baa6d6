"""Each state of an agent beside a ptp4l, for hosts/tests/ptp4l: two managers with three SETs, whose copies come at any time, and an agent and
a ptp4l that die at any time. The ptp4l takes what is on its socket in order, and loses it at its end. No SET is carried out twice, each copy
gets one reply, and what is replied is true. Agents that break a rule each are caught."""
from collections import namedtuple

SETS = {"a1": ("a", 1, 1), "a2": ("a", 2, 2), "b1": ("b", 1, 3)}       # the manager, its number and the value
LIVES, DEATHS = 3, 3
BROKEN = ["it does not save what is under way", "it asks before it saves", "it asks again after a look", "it looks before the ptp4l answers",
          "it does not wait", "it forgets what is under way before its reply is saved"]

# saved: the replies, and what is under way; stage: None if nothing is; asked_life: the life of the ptp4l that was asked
State = namedtuple("State", "is_up replies saved under stage asked_life life queue value done inbox deaths told foreign")
START = State(True, (), ((), None), None, None, 0, 1, (), 0, (), (), 0, (), False)


def number_of(replies, manager):
    return max((SETS[one][1] for one, _ in replies if SETS[one][0] == manager), default=0)


def with_reply(state, one, says):
    """It is saved with the reply, and nothing under way."""
    replies = tuple(sorted(state.replies + ((one, says),)))
    return state._replace(replies=replies, saved=(replies, None), under=None, stage=None)


def fault_of_reply(state, one, says):
    is_there = (one, state.life) in state.done and state.value == SETS[one][2]
    if says == "done" and one not in [done for done, _ in state.done] and state.value != SETS[one][2]:
        return f"{one} is answered as done, and was not"
    if says == "refused" and (("set", one) in state.queue or (is_there and not state.foreign)):
        return f"{one} is answered as refused, and is done"
    return None


def requests(state, broken):
    """What managers send, copies too. The second SET of one comes once the first is answered."""
    for one, (manager, number, _) in SETS.items():
        latest = number_of(state.replies, manager)
        kept = dict(state.replies).get(one)
        if kept and state.replies == state.saved[0] and (one, kept) not in state.told:
            yield f"{one} is answered", state._replace(told=tuple(sorted(state.told + ((one, kept),)))), None
        if number == latest + 1 and state.stage is None and (number == 1 or any(told[0] == "a1" for told in state.told)):
            is_early = broken in BROKEN[:2]
            saved = state.saved if is_early else (state.replies, one)
            yield f"{one} is taken", state._replace(saved=saved, under=one, stage="noted"), None


def answers(state):
    """What is known of what is under way: an answer to the SET or to the look, or the end of the life that was asked."""
    one, value = state.under, SETS[state.under][2]
    for kind, other, has in state.inbox:
        if other == one:
            yield "done" if kind == "set" or has == value else "refused", kind
    if state.asked_life != state.life and not any(other == one for _, other, _ in state.inbox):
        yield "refused", "end"


def steps_of_change(state, broken):
    one = state.under
    if state.stage == "noted":
        yield f"{one} is asked", state._replace(queue=state.queue + (("set", one),), stage="asked", asked_life=state.life), None
    if state.stage == "asked" and broken == BROKEN[1] and state.saved[1] is None:
        yield f"{one} is saved late", state._replace(saved=(state.replies, one)), None
    if state.stage == "look":
        yield f"a look for {one}", state._replace(queue=state.queue + (("get", one),), stage="looking", asked_life=state.life), None
    for says, kind in answers(state) if state.stage in ("asked", "looking") else ():
        if broken == BROKEN[2] and kind == "get" and says == "refused":
            yield f"{one} is asked again", state._replace(queue=state.queue + (("set", one),), stage="asked", asked_life=state.life, inbox=()), None
            continue
        yield f"{one} is {says}", with_reply(state, one, says)._replace(inbox=()), fault_of_reply(state, one, says)
        if broken == BROKEN[5]:
            yield f"{one} is forgotten", state._replace(saved=(state.replies, None)), None
    if broken == BROKEN[3] and state.stage == "look":
        says = "done" if state.value == SETS[one][2] else "refused"
        yield f"{one} is {says} by what is there", with_reply(state, one, says), fault_of_reply(state, one, says)
    if broken == BROKEN[4] and state.stage == "asked":
        yield f"{one} is late", with_reply(state, one, "refused"), fault_of_reply(state, one, "refused")


def steps_of_ptp4l(state):
    if state.queue:
        (kind, one), rest = state.queue[0], state.queue[1:]
        heard = state.inbox + ((kind, one, state.value),) if state.is_up else state.inbox
        if kind == "get":
            yield f"the ptp4l is read for {one}", state._replace(queue=rest, inbox=heard), None
        else:
            fault = f"{one} is done twice" if one in [done for done, _ in state.done] else None
            done = tuple(sorted(state.done + ((one, state.life),)))
            yield f"the ptp4l does {one}", state._replace(queue=rest, value=SETS[one][2], done=done, inbox=heard), fault
    if state.deaths < DEATHS and state.life < LIVES:
        yield "the ptp4l is started again", state._replace(life=state.life + 1, queue=(), value=0, deaths=state.deaths + 1), None
    if not state.foreign:
        yield "somebody else sets it", state._replace(value=9, foreign=True), None


def steps(state, broken):
    if state.is_up:
        yield from requests(state, broken)
        if state.under:
            yield from steps_of_change(state, broken)
        if state.deaths < DEATHS:
            yield "the agent dies", state._replace(is_up=False, replies=(), under=None, stage=None, inbox=(), deaths=state.deaths + 1), None
    else:
        replies, under = state.saved
        yield "the agent starts", state._replace(is_up=True, replies=replies, under=under, stage="look" if under else None), None
    yield from steps_of_ptp4l(state)


def explore(broken=None):
    """How many states there are, and the first thing that is wrong."""
    seen, left = {START}, [START]
    for state in left:
        for _, after, fault in steps(state, broken):
            told = [one for one, _ in after.told]
            if fault or len(told) != len(set(told)):
                return len(seen), fault or "a copy gets another reply"
            if after not in seen:
                seen.add(after)
                left.append(after)
    return len(seen), None
