"""Types, layouts and values as the program tells them."""
import unittest

from ndnote.values import Layout, Type, Value


class Types(unittest.TestCase):
    def test_formats_and_headers_agree(self):
        of_format = Type.of_format('T{<H:sensor:2x>i:count:?:ok:3x}', 12)
        of_descr = Type.of_descr([('sensor', '<u2'), ('', '|V2'), ('count', '>i4'), ('ok', '|b1'), ('', '|V3')])
        for found in (of_format, of_descr):
            self.assertEqual([(field.name, field.kind, field.at) for field in found.fields],
                             [('sensor', 'uint16', 0), ('count', '>i4', 4), ('ok', 'bool', 8)])
            self.assertEqual(found.size, 12)

    def test_answers(self):
        self.assertEqual(Value.of_answer('int -5').tolist(), -5)
        self.assertEqual(Value.of_answer('bool True').tolist(), True)
        self.assertEqual(Value.of_answer('array <h 2 2,2 0100020003000400').tolist(), [[1, 2], [3, 4]])
        self.assertEqual(Value.of_answer('array b 1 2,3,0 -').tolist(), [[[], [], []], [[], [], []]])
        self.assertEqual(Value.of_answer('array b 1 0,3 -').tolist(), [])
        self.assertEqual(Value.of_answer('row T{b:a b:<i:b:} 5 ff0a000000').tolist(), (-1, 10))


class Layouts(unittest.TestCase):
    def test_layouts(self):
        text = '{"format": "<H", "itemsize": 2, "shape": [2, 3], "strides": [-6, 2], "offset": 6}'
        self.assertEqual(Layout.of_json(text), Layout('<H', 2, (2, 3), (-6, 2), 6))
        self.assertEqual(Layout.of_view(memoryview(bytes(6)).cast('B', (2, 3))), Layout('B', 1, (2, 3), (3, 1)))

    def test_wrong_layouts(self):
        good = '"itemsize": 1, "shape": [2], "strides": [1]'
        for text in ('', '[]', '{}', '{"format": "B 1\\ncount", %s}' % good, '{"format": 5, %s}' % good,
                     '{"format": "B", %s, "more": 1}' % good, '{"format": "B", %s, "offset": -1}' % good,
                     '{"format": "B", "itemsize": 1.5, "shape": [2], "strides": [1]}',
                     '{"format": "B", "itemsize": 1, "shape": [-2], "strides": [1]}',
                     '{"format": "B", "itemsize": 1, "shape": [true], "strides": [1]}',
                     '{"format": "B", "itemsize": 1, "shape": 2, "strides": [1]}'):
            with self.assertRaises(ValueError, msg=text):
                Layout.of_json(text)


if __name__ == '__main__':
    unittest.main()
