"""What strangers send, and a client of OpenLDAP (RFC 4511 4.1.1 and 4.4.1)."""

from program import replays, test
from trees import ORGANISATION

# Octets as they come from programs: of other protocols, and of clients that ask for what is not there.
STRANGERS = [
    (
        "open 1\n"
        "send 1 474554202f20485454502f312e310d0a486f73743a206c6f63616c686f73743a3338390d0a557365722d4167656e743a206375726c2f372e38382e310d0a4163636570743a202a2f2a0d0a0d0a\n",
        "1 3024020100781f0a0102040004008a16312e332e362e312e342e312e313436362e3230303336 closed\n",
        "an HTTP request",
    ),
    (
        "open 1\n"
        "send 1 5353482d322e302d4f70656e5353485f392e3270312044656269616e2d322b646562313275330d0a\n",
        "1 3024020100781f0a0102040004008a16312e332e362e312e342e312e313436362e3230303336 closed\n",
        "a greeting of SSH",
    ),
    (
        "open 1\n"
        "send 1 1603010200010001fc03035a5a5a5a5a5a5a5a5a5a5a5a5a5a5a5a5a5a5a5a5a5a5a5a5a5a5a5a5a5a5a5a20a5a5a5a5a5a5a5a5a5a5a5a5a5a5a5a5a5a5a5a5a5a5a5a5a5a5a5a5a5a5a5a50022130113031302c02bc02fcca9cca8c02cc030c00ac009c013c014009c009d002f0035\n",
        "1 3024020100781f0a0102040004008a16312e332e362e312e342e312e313436362e3230303336 closed\n",
        "a TLS hello",
    ),
    (
        "open 1\nsend 1 45484c4f206d61696c2e6578616d706c652e6f72670d0a\n",
        "1 3024020100781f0a0102040004008a16312e332e362e312e342e312e313436362e3230303336 closed\n",
        "a greeting of SMTP",
    ),
    (
        "open 1\n"
        "send 1 301d02010177188016312e332e362e312e342e312e313436362e3230303337\n",
        "1 300c02010178070a010204000400\n",
        "StartTLS",
    ),
    (
        "open 1\n"
        "send 1 301e02010277198017312e332e362e312e342e312e343230332e312e31312e33\n",
        "1 300e02010278090a0100040004008b00\n",
        "Who am I",
    ),
    (
        "open 1\nsend 1 301802010160130201030400a30c040845585445524e414c0400\n",
        "1 300c02010161070a010704000400\n",
        "a bind by SASL, with empty credentials",
    ),
    (
        "open 1\n"
        "send 1 300c0201016007020103040080003025020102632004000a01020a0100020100020100010100870b6f626a656374436c617373300030050201034200\n",
        "1 300c02010161070a010004000400300c02010265070a012004000400 closed\n",
        "ldapsearch with its defaults: a bind, a search of all below no name, and an unbind",
    ),
]


@test
def strangers_get_the_notice_and_clients_an_answer():
    return replays(STRANGERS, ORGANISATION)
