"""What is wrong with a packet of a broker."""
import unittest

import worked  # noqa: F401  it knows where the tools are
from mqroute_tools.live.packets import MQTT_3_1_1, MQTT_5, fault, in_words


class Packets(unittest.TestCase):
    RIGHT = ("20 00 00 00", "20 01 00 02 24 01", "20 00 87 00", "30 00 01 78 00 68 69",
             "32 00 01 78 00 05 00", "31 00 01 78 05 02 00 00 00 09", "30 00 01 78 04 0b 01 0b 02",
             "40 00 01", "40 00 01 10", "50 00 01 87 00", "62 00 01", "70 00 01 92",
             "90 00 01 00 02", "90 00 01 00 8f", "b0 00 01 00 11", "d0", "e0", "e0 8e", "e0 8e 00",
             "30 00 01 78 07 26 00 01 61 00 01 62")
    WRONG = {
        "20 00": "that is cut short", "20 02 00 00": "with the flags 2",
        "20 00 01 00": "with reason 1,", "20 00 00": "of MQTT 3.1.1",
        "21 00 00 00": "with the flags 1",
        "20 00 00 02 24 02": "with a Maximum QoS of 2", "36 00 01 78 00 01 00": "with QoS 3",
        "38 00 01 78 00": "with QoS 0 and DUP", "30 00 02 ff fe 00": "not UTF-8",
        "30 00 01 2b 00": "with the topic '+'", "30 00 00 00": "with the topic ''",
        "30 00 01 00 00": "U+0000", "32 00 01 78 00 00 00": "with the packet identifier 0",
        "30 00 01 78 02 7f 01": "with property 127,",
        "30 00 01 78 03 23 00 01": "with property 35,",
        "30 00 01 78 02 0b 00": "with a Subscription Identifier of 0",
        "30 00 01 78 02 0b 80": "cut short", "30 00 01 78 09 02": "cut short",
        "30 00 01 78 04 01 00 01 00": "with two of Payload Format Indicator",
        "30 00 01 78 ff ff ff ff ff": "over 4 bytes", "40 00 01 11": "with reason 17,",
        "90 00 01 00": "without a reason", "90 00 01 00 7b": "with reason 123,",
        "b0 00 01": "cut short", "b0 00 01 00 00 00": "1 bytes too many",
        "e0 01": "with reason 1,", "00": "begins with 00", "c0": "begins with c0",
        "f0 18 00": "begins with f0", "60 00 01": "with the flags 0"}
    OLD = {"20 00 00": "", "20 01 05": "", "20 00 00 00": "too many", "20 00 06": "over 5",
           "30 00 01 78 68": "", "40 00 01": "", "40 00 01 00": "too many", "90 00 01 80": "",
           "90 00 01 03": "with reason 3", "b0 00 01": "", "e0": "MQTT 3.1.1 doesn't have"}

    def fault(self, packet: str, protocol: str = MQTT_5) -> str:
        first, *body = bytes.fromhex(packet)
        return fault(first, bytes(body), protocol)

    def test_mqtt_5(self):
        for packet in self.RIGHT:
            self.assertEqual(self.fault(packet), "", packet)
        for packet, said in self.WRONG.items():
            self.assertIn(said, self.fault(packet), packet)

    def test_mqtt_3_1_1(self):
        for packet, said in self.OLD.items():
            found = self.fault(packet, MQTT_3_1_1)
            self.assertTrue(found and said in found if said else found == "", (packet, found))

    def test_words(self):
        self.assertEqual(self.fault("b0 00 01 00"), "an UNSUBACK without a reason")
        self.assertEqual(in_words(142), "142 (session taken over)")
        self.assertEqual(in_words(99), "99")


if __name__ == "__main__":
    unittest.main()
