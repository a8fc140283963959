"""Captures of a session that falls for a fault, of which segments are lost, or the ends of packets: by chance, but the same at each run. What contrib/why says
is right where it names the message at fault, or says that it is one of which octets are missing."""
import random
import re

import faults
import scenes
from packets import pcap

# Of those that end a session these aren't UPDATEs.
OTHERS = ("an OPEN", "no Marker", "a Length of 18", "a Length of 4097", "a KEEPALIVE of 20 octets", "a type of 9")
FAULTS = [*faults.OUTLIVED.items(), *((name, octets) for name, (octets, _) in faults.ENDING.items() if name not in OTHERS)]


class Loss:
    """One of them: what is lost, its file, and where its fault is."""

    def __init__(self, number):
        chance = random.Random(number)
        self.fault, octets = chance.choice(FAULTS)
        sound = [scenes.SOUND] * chance.randrange(5)
        self.place = scenes.AFTER + len(scenes.SOUND) * len(sound)
        it = scenes.up(numbers=(chance.randrange(1 << 32), chance.randrange(1 << 32)))
        it.say("A", *sound).say("A", octets, size=chance.choice([1448, 30])).say("B", scenes.notification(3, chance.choice([1, 5, 10])))
        # The NOTIFICATION, before what acknowledges it, and one SYN are present.
        kept = {0, len(it.packets) - 2}
        self.rate, self.snap = chance.choice([0, 0.1, 0.3, 0.6]), chance.choice([65535, 65535, 90, 62])
        packets = [one for n, one in enumerate(it.packets) if n in kept or chance.random() >= self.rate]
        self.name = f"loss {number}, {self.fault}, rate {self.rate}, of packets {self.snap} octets"
        self.file = pcap(packets, snap=self.snap)

    def wrong(self, told):
        """What is wrong with what is printed."""
        found = re.search(rf"for {re.escape(scenes.A)}'s .* at octet (\d+);", told)
        if found and int(found[1]) != self.place:
            return [f"{found[1]} in place of {self.place}"]
        is_whole = self.rate == 0 and self.snap > 1500
        if is_whole and not found or not found and f"for a message of {scenes.A} of which octets are missing" not in told:
            return ["no answer"]
        return []
