"""Writes a sample tape with warnings of every kind.

    python3 model/sample.py TAPE
"""

import sys

from tape import Message, Primary, encode

WARNINGS = [
    # Primaries, without and with security information.
    Primary(4352, 12288, 384),
    Primary(4354, 12305, 1408, bytes(range(0x20, 0x52))),
    # Block 11.
    Message(11, 4352, 12288, 1,
            b"Earthquake warning. Strong shaking is expected. Drop, cover and hold on."),
    # Block 12, area absent, 32 octets.
    Message(12, 4370, 21, 15, b"Test of the public warning line."),
    # Block 12, area present.
    Message(12, 4371, 22, 15,
            b"Flood warning. The river will rise above its banks before 18:00. Leave the low roads.",
            b"47.0502 8.3093 47.0561 8.3187 47.0489 8.3264"),
    # Block 8, area absent, 33 octets.
    Message(8, 4379, 23, 15, b"Fire near the station. Keep away."),
    # Block 8, area present and empty.
    Message(8, 4373, 24, 15, b"Storm warning until 22:00. Stay indoors.", b""),
    # Block 8, a longer text with an area.
    Message(8, 4353, 12289, 1,
            b"Tsunami warning for the whole coast. The first wave is expected at 14:35. Leave the beach"
            b" and the harbour at once and go to high ground. Do not return before the authorities give"
            b" the all clear.",
            b"38.2613 140.8820"),
    # Empty messages: area absent, area present with octets.
    Message(11, 4355, 12290, 0, b""),
    Message(12, 4380, 25, 15, b"", b"52.5200 13.4050"),
    # A primary after messages.
    Primary(4356, 12321, 0),
]


def main():
    with open(sys.argv[1], "wb") as tape:
        tape.write(encode(WARNINGS))


if __name__ == "__main__":
    main()
