"""Inputs that together show each answer of docs/openapi.yaml that an input can bring about.

A line is `METHOD path body`, sent with the key `north`; one that begins with `key=K ` has the key K, or none where K is empty.
All run on examples/k1.json, from 2026-06-01T06:00:00Z on.
"""

SECOND = '{"from":"BASEL","run":0,"to":"BERN"}'
FIRST = '{"class":"FIRST","from":"BASEL","run":0,"to":"BERN"}'
OFFER = "O1780293600-1-0-2-0-0.1.2"
OLD_OFFER = "O1780292699-1-0-2-0-0.1.2"
LATER_OFFER = "O1780293601-1-0-2-0-0.1.2"
WITH_BODY = [
    "POST /offers",
    "POST /bookings",
    "POST /reservations",
    "PATCH /bookings/B000000/fulfillments",
    "PATCH /bookings/B000000/refund-offers/R0-1780293600-C-0",
    "POST /exchange-offers",
    "POST /bookings/B000000/exchange-operations",
]

# Name, seconds between two requests, rows of the catalogue, lines.
CASES = [
    ("no JSON", 0, 65536, [line + " {" for line in WITH_BODY]),
    ("no object", 0, 65536, [line + " []" for line in WITH_BODY]),
    (
        "what is unknown",
        0,
        65536,
        [
            'POST /offers {"adults":1,"destination":"NOWHERE","earliest":"2026-06-01T07:00:00Z","origin":"BASEL"}',
            'POST /offers {"adults":1,"destination":"BASEL","earliest":"2026-06-01T07:00:00Z","origin":"THUN"}',
            'POST /bookings {"offerId":"O1"}',
            'POST /reservations {"from":"NOWHERE","run":0,"to":"BERN"}',
            'POST /reservations {"from":"BERN","run":0,"to":"BASEL"}',
            "GET /bookings/B000777",
            "DELETE /bookings/B000777",
            "POST /bookings/B000777/fulfillments",
            'PATCH /bookings/B000777/fulfillments {"status":"FULFILLED"}',
            "POST /bookings/B000777/refund-offers",
            'PATCH /bookings/B000777/refund-offers/R1 {"status":"CONFIRMED"}',
            'PATCH /bookings/B000777/refund-offers/R777-1780293600-C-0 {"status":"CONFIRMED"}',
            'POST /exchange-offers {"bookingId":"B000777","offerId":"%s"}' % LATER_OFFER,
            'POST /exchange-offers {"bookingId":"B000777","offerId":"%s"}' % OFFER,
            'POST /bookings/B000777/exchange-operations {"exchangeOfferId":"X1"}',
            'POST /bookings/B000777/exchange-operations {"exchangeOfferId":"X777-1780293600-C-p0-%s"}' % OFFER,
            "GET /runs/7/places/BASEL/BERN",
            "GET /runs/0/places/BASEL/NOWHERE",
            "GET /runs/0/places/BERN/BASEL",
            "GET /nowhere",
            "PUT /bookings/B000000",
        ],
    ),
    (
        "too old",
        0,
        65536,
        [
            'POST /bookings {"offerId":"%s"}' % OLD_OFFER,
            'PATCH /bookings/B000000/refund-offers/R0-1780292699-C-0 {"status":"CONFIRMED"}',
            'POST /exchange-offers {"bookingId":"B000000","offerId":"%s"}' % OLD_OFFER,
            'POST /bookings/B000000/exchange-operations {"exchangeOfferId":"X0-1780292699-C-p0-%s"}' % OLD_OFFER,
        ],
    ),
    ("too late", 901, 65536, ["POST /reservations " + SECOND, "POST /bookings/B000000/fulfillments"]),
    (
        "a life to its refund",
        60,
        65536,
        [
            'POST /offers {"adults":2,"children":1,"class":"SECOND","destination":"THUN","earliest":"2026-06-01T07:00:00Z","origin":"BASEL","wanted":["WINDOW"]}',
            'POST /bookings {"offerId":"O1780293600-2-1-2-1-0.0.2_1.0.1"}',
            'PATCH /bookings/B000000/fulfillments {"status":"FULFILLED"}',
            "POST /bookings/B000000/refund-offers",
            'POST /exchange-offers {"bookingId":"B000000","offerId":"%s"}' % OFFER,
            "POST /bookings/B000000/fulfillments",
            "POST /bookings/B000000/fulfillments",
            "DELETE /bookings/B000000",
            "POST /bookings/B000000/refund-offers",
            'PATCH /bookings/B000000/refund-offers/R0-1780294080-C-1 {"status":"CONFIRMED"}',
            'PATCH /bookings/B000000/fulfillments {"status":"FULFILLED"}',
            'PATCH /bookings/B000000/refund-offers/R0-1780294080-C-3187 {"status":"CONFIRMED"}',
            "POST /bookings/B000000/refund-offers",
            'PATCH /bookings/B000000/refund-offers/R0-1780294320-F-2687 {"status":"CONFIRMED"}',
            "GET /bookings/B000000",
        ],
    ),
    (
        "a release and a sweep",
        900,
        65536,
        [
            "POST /reservations " + SECOND,
            "DELETE /bookings/B000000",
            "POST /reservations " + SECOND,
            "POST /sweeps",
            "POST /sweeps",
            "GET /bookings/B000001",
            "GET /runs/0/places/BASEL/BERN",
        ],
    ),
    (
        "an exchange",
        0,
        65536,
        [
            "POST /reservations " + FIRST,
            "POST /bookings/B000000/fulfillments",
            'POST /reservations {"count":6,"from":"BERN","run":1,"to":"THUN"}',
            'POST /reservations {"from":"BERN","run":1,"to":"THUN"}',
            'POST /bookings {"offerId":"O1780293600-1-0-2-0-1.0.1"}',
            'POST /exchange-offers {"bookingId":"B000000","offerId":"O1780293600-1-0-2-0-1.0.1"}',
            'POST /bookings/B000000/exchange-operations {"exchangeOfferId":"X0-1780293600-C-m750-O1780293600-1-0-2-0-1.0.1"}',
            'POST /exchange-offers {"bookingId":"B000000","offerId":"%s"}' % OFFER,
            'POST /bookings/B000000/exchange-operations {"exchangeOfferId":"X0-1780293600-C-m551-%s"}' % OFFER,
            'POST /bookings/B000000/exchange-operations {"exchangeOfferId":"X0-1780293600-C-m550-%s"}' % OFFER,
            'POST /bookings/B000000/exchange-operations {"exchangeOfferId":"X0-1780293600-C-m550-%s"}' % OFFER,
            "GET /bookings/B000000",
        ],
    ),
    (
        "one row",
        0,
        1,
        [
            "POST /reservations " + FIRST,
            "POST /reservations " + FIRST,
            'POST /bookings {"offerId":"%s"}' % OFFER,
            "POST /bookings/B000000/fulfillments",
            'POST /exchange-offers {"bookingId":"B000000","offerId":"%s"}' % OFFER,
            'POST /bookings/B000000/exchange-operations {"exchangeOfferId":"X0-1780293600-C-m550-%s"}' % OFFER,
        ],
    ),
]

# Name, and the bytes of an input that is no request.
BROKEN = [
    ("no request head", "GET\r\n\r\n"),
    ("66 lines", "GET / HTTP/1.1\r\n" + "A: b\r\n" * 65 + "\r\n"),
    ("a body too large", "POST /offers HTTP/1.1\r\nContent-Length: 262145\r\n\r\n"),
    ("a coding", "POST /offers HTTP/1.1\r\nTransfer-Encoding: chunked\r\n\r\n0\r\n\r\n"),
    ("two lengths", "POST /offers HTTP/1.1\r\nContent-Length: 3\r\nContent-Length: 4\r\n\r\n"),
]
