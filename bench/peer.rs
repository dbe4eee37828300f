//! A plain program for the four mixes of the benchmarks, as one would write it in a day: no proof, no history, a mask for each place and a lock
//! for each booking. It gives the same bytes as the proved host to the requests of those mixes; for any other it isn't meant.
//!
//!     rustc -O -o peer bench/peer.rs
//!     peer replay CATALOGUE START                          one connection, from standard input to standard output
//!     peer serve CATALOGUE PORT WORKERS CONNECTIONS        on 127.0.0.1
use std::collections::{BTreeMap, HashMap};
use std::io::{Read, Write};
use std::net::TcpListener;
use std::ops::Range;
use std::sync::atomic::{AtomicU64, AtomicUsize, Ordering::SeqCst};
use std::sync::Mutex;
use std::time::{SystemTime, UNIX_EPOCH};

const CONFIRM_SECONDS: u64 = 900;
const QUOTE_SECONDS: u64 = 900;
const WINDOW: u64 = 86_400;
const LONGEST_WAIT: u64 = 14_400;
const MOST_TRIPS: usize = 16;
const CHANGE: u64 = 300;

// JSON

#[derive(Debug)]
enum Json {
    Word, // null, true or false, which no member of the mixes has
    Number(f64),
    Text(String),
    List(Vec<Json>),
    Object(BTreeMap<String, Json>),
}

struct Reader<'t> {
    text: &'t [u8],
    at: usize,
}

impl Reader<'_> {
    fn peek(&mut self) -> Option<u8> {
        while self.text.get(self.at).is_some_and(u8::is_ascii_whitespace) {
            self.at += 1;
        }
        self.text.get(self.at).copied()
    }

    fn take(&mut self, byte: u8) -> Option<()> {
        (self.peek()? == byte).then(|| self.at += 1)
    }

    fn word(&mut self, word: &str) -> Option<Json> {
        self.text[self.at..].starts_with(word.as_bytes()).then(|| self.at += word.len())?;
        Some(Json::Word)
    }

    fn string(&mut self) -> Option<String> {
        self.take(b'"')?;
        let from = self.at;
        while *self.text.get(self.at)? != b'"' {
            (self.text[self.at] != b'\\').then_some(())?; // no mix has an escape
            self.at += 1;
        }
        self.at += 1;
        String::from_utf8(self.text[from..self.at - 1].to_vec()).ok()
    }

    fn value(&mut self) -> Option<Json> {
        match self.peek()? {
            b'{' => self.object(),
            b'[' => self.list(),
            b'"' => self.string().map(Json::Text),
            b't' => self.word("true"),
            b'f' => self.word("false"),
            b'n' => self.word("null"),
            _ => self.number(),
        }
    }

    fn number(&mut self) -> Option<Json> {
        let from = self.at;
        while self.text.get(self.at).is_some_and(|byte| b"+-.eE0123456789".contains(byte)) {
            self.at += 1;
        }
        std::str::from_utf8(&self.text[from..self.at]).ok()?.parse().ok().map(Json::Number)
    }

    fn list(&mut self) -> Option<Json> {
        let mut list = Vec::new();
        self.take(b'[')?;
        while self.peek()? != b']' {
            if !list.is_empty() {
                self.take(b',')?;
            }
            list.push(self.value()?);
        }
        self.at += 1;
        Some(Json::List(list))
    }

    fn object(&mut self) -> Option<Json> {
        let mut members = BTreeMap::new();
        self.take(b'{')?;
        while self.peek()? != b'}' {
            if !members.is_empty() {
                self.take(b',')?;
            }
            let name = self.string()?;
            self.take(b':')?;
            members.insert(name, self.value()?);
        }
        self.at += 1;
        Some(Json::Object(members))
    }
}

fn read_json(text: &[u8]) -> Option<Json> {
    let mut reader = Reader { text, at: 0 };
    let value = reader.value()?;
    reader.peek().is_none().then_some(value)
}

impl Json {
    fn get(&self, name: &str) -> Option<&Json> {
        match self {
            Json::Object(members) => members.get(name),
            _ => None,
        }
    }

    fn text(&self, name: &str) -> Option<&str> {
        match self.get(name)? {
            Json::Text(text) => Some(text),
            _ => None,
        }
    }

    fn number(&self, name: &str) -> Option<u64> {
        match self.get(name)? {
            Json::Number(number) if *number >= 0.0 && number.fract() == 0.0 => Some(*number as u64),
            _ => None,
        }
    }

    fn list(&self, name: &str) -> &[Json] {
        match self.get(name) {
            Some(Json::List(list)) => list,
            _ => &[],
        }
    }
}

// Moments, as seconds since 1970

fn read_moment(text: &str) -> Option<u64> {
    let part = |range: Range<usize>| text.get(range)?.parse::<u64>().ok();
    let (year, month, day) = (part(0..4)?, part(5..7)?, part(8..10)?);
    let years = if month > 2 { year } else { year - 1 };
    let days = 365 * years + years / 4 - years / 100 + years / 400 + (153 * ((month + 9) % 12) + 2) / 5 + day - 719_469;
    Some(days * 86_400 + part(11..13)? * 3_600 + part(14..16)? * 60 + part(17..19)?)
}

fn write_moment(out: &mut Vec<u8>, moment: u64) {
    let days = moment / 86_400 + 719_468;
    let era = days / 146_097;
    let day = days % 146_097;
    let year = (day - day / 1_460 + day / 36_524 - day / 146_096) / 365;
    let day = day - (365 * year + year / 4 - year / 100);
    let month = (5 * day + 2) / 153;
    let (second, day) = (moment % 86_400, day - (153 * month + 2) / 5 + 1);
    let month = if month < 10 { month + 3 } else { month - 9 };
    let year = era * 400 + year + u64::from(month < 3);
    let _ = write!(out, "\"{year:04}-{month:02}-{day:02}T{:02}:{:02}:{:02}Z\"", second / 3_600, second / 60 % 60, second % 60);
}

// The catalogue

struct Stop {
    station: usize,
    arrive: u64,
    depart: u64,
}

struct Run {
    train: u64,
    stops: Vec<Stop>,
    fares: [(u64, u64); 2],
    places: Range<usize>,
}

struct Place {
    run: usize,
    class: usize,
    coach: u64,
    label: u64,
    shown: [String; 2], // its object in a list of places, before and behind the word that says whether it is free
}

struct Catalogue {
    currency: String,
    rows: usize,
    keys: HashMap<String, u64>,
    codes: Vec<String>,
    numbers: HashMap<String, usize>,
    changes: Vec<u64>,
    runs: Vec<Run>,
    places: Vec<Place>,
    departures: Vec<Vec<(u64, usize, usize)>>, // of each station, in order: moment, run, stop
}

const CLASSES: [&str; 2] = ["FIRST", "SECOND"];

fn class_of(json: &Json) -> Option<usize> {
    CLASSES.iter().position(|name| *name == json.text("class").unwrap_or("SECOND"))
}

fn read_run(json: &Json, number: usize, numbers: &HashMap<String, usize>, places: &mut Vec<Place>) -> Option<Run> {
    let mut stops = Vec::new();
    for stop in json.list("stops") {
        let arrive = stop.text("arrive").and_then(read_moment);
        let depart = stop.text("depart").and_then(read_moment);
        let station = *numbers.get(stop.text("station")?)?;
        stops.push(Stop { station, arrive: arrive.or(depart)?, depart: depart.or(arrive)? });
    }
    let fare = |class: &str| json.get("fares")?.get(class).map(|fare| (fare.number("base").unwrap_or(0), fare.number("perLeg").unwrap_or(0)));
    let from = places.len();
    for coach in json.list("coaches") {
        for group in coach.list("places") {
            for label in group.number("first")?..=group.number("last")? {
                let (class, coach) = (class_of(coach)?, coach.number("coach")?);
                let before = format!("{{\"class\":\"{}\",\"coach\":{coach},\"free\":", CLASSES[class]);
                places.push(Place { run: number, class, coach, label, shown: [before, format!(",\"place\":{label},\"traits\":[]}}")] });
            }
        }
    }
    Some(Run { train: json.number("train")?, stops, fares: [fare("first")?, fare("second")?], places: from..places.len() })
}

fn read_catalogue(text: &[u8]) -> Option<Catalogue> {
    let json = read_json(text)?;
    let keys = json.list("retailers").iter().filter_map(|one| Some((one.text("key")?.to_string(), one.number("number")?))).collect();
    let codes: Vec<String> = json.list("stations").iter().filter_map(|one| Some(one.text("code")?.to_string())).collect();
    let numbers: HashMap<String, usize> = codes.iter().cloned().zip(0..).collect();
    let changes = json.list("stations").iter().map(|one| one.number("change").unwrap_or(CHANGE)).collect();
    let (mut runs, mut places, mut departures) = (Vec::new(), Vec::new(), vec![Vec::new(); codes.len()]);
    for (number, run) in json.list("runs").iter().enumerate() {
        let run = read_run(run, number, &numbers, &mut places)?;
        for (at, stop) in run.stops.iter().enumerate().rev().skip(1) {
            departures[stop.station].push((stop.depart, number, at));
        }
        runs.push(run);
    }
    departures.iter_mut().for_each(|list| list.sort());
    let (currency, rows) = (json.text("currency")?.to_string(), json.number("rows").unwrap_or(65_536) as usize);
    Some(Catalogue { currency, rows, keys, codes, numbers, changes, runs, places, departures })
}

// Trips

#[derive(Clone, Copy, PartialEq, Eq, PartialOrd, Ord)]
struct Segment {
    run: usize,
    from: usize,
    to: usize,
}

type Trip = Vec<Segment>;

impl Catalogue {
    fn leaving(&self, station: usize, from: u64, to: u64) -> &[(u64, usize, usize)] {
        let list = &self.departures[station];
        let begin = list.partition_point(|entry| entry.0 < from);
        &list[begin..begin + list[begin..].partition_point(|entry| entry.0 <= to)]
    }

    fn go_on(&self, trip: &mut Trip, departures: &[(u64, usize, usize)], destination: usize, found: &mut Vec<Trip>) {
        for &(_, run, from) in departures {
            if trip.iter().any(|before| before.run == run) {
                continue;
            }
            for to in from + 1..self.runs[run].stops.len() {
                trip.push(Segment { run, from, to });
                let stop = &self.runs[run].stops[to];
                if stop.station == destination {
                    found.push(trip.clone());
                }
                if trip.len() < 3 {
                    let next = self.leaving(stop.station, stop.arrive + self.changes[stop.station], stop.arrive + LONGEST_WAIT);
                    self.go_on(trip, next, destination, found);
                }
                trip.pop();
            }
        }
    }

    /// The first sixteen trips, by arrival, later departure, fewer trains, and lower runs and stops.
    fn trips(&self, origin: usize, destination: usize, from: u64, to: u64) -> Vec<Trip> {
        let mut found = Vec::new();
        self.go_on(&mut Vec::new(), self.leaving(origin, from, to), destination, &mut found);
        found.sort_by_cached_key(|trip| {
            let (first, last) = (trip[0], trip[trip.len() - 1]);
            let depart = self.runs[first.run].stops[first.from].depart;
            (self.runs[last.run].stops[last.to].arrive, u64::MAX - depart, trip.len(), trip.clone())
        });
        found.truncate(MOST_TRIPS);
        found
    }

    fn price(&self, segment: Segment, class: usize, adults: u64, children: u64) -> u64 {
        let (base, per_leg) = self.runs[segment.run].fares[class];
        let adult = base + per_leg * (segment.to - segment.from) as u64;
        adults * adult + children * (adult / 2)
    }

    fn span_between(&self, run: usize, from: &str, to: &str) -> Option<Segment> {
        let stops = &self.runs.get(run)?.stops;
        let stop = |code: &str| stops.iter().position(|stop| self.codes[stop.station] == code);
        let (from, to) = (stop(from)?, stop(to)?);
        (from < to).then_some(Segment { run, from, to })
    }
}

// Bookings

struct Booking {
    retailer: u64,
    limit: u64,
    total: u64,
    segment: Segment,
    places: Vec<usize>,
    status: &'static str,
}

struct Host {
    cat: Catalogue,
    masks: Vec<AtomicU64>,
    rows: Vec<Mutex<Option<Booking>>>,
    next_row: AtomicUsize,
}

fn mask_of(segment: Segment) -> u64 {
    (1 << segment.to) - (1 << segment.from)
}

impl Host {
    fn new(cat: Catalogue) -> Host {
        let masks = cat.places.iter().map(|_| AtomicU64::new(0)).collect();
        let rows = (0..cat.rows).map(|_| Mutex::new(None)).collect();
        Host { cat, masks, rows, next_row: AtomicUsize::new(0) }
    }

    fn take(&self, place: usize, mask: u64) -> bool {
        let mut shown = self.masks[place].load(SeqCst);
        while shown & mask == 0 {
            match self.masks[place].compare_exchange(shown, shown | mask, SeqCst, SeqCst) {
                Ok(_) => return true,
                Err(other) => shown = other,
            }
        }
        false
    }

    fn reserve(&self, retailer: u64, segment: Segment, class: usize, count: usize, now: u64) -> Result<usize, (u64, &'static str)> {
        let (mask, mut places) = (mask_of(segment), Vec::with_capacity(count));
        for place in self.cat.runs[segment.run].places.clone() {
            if places.len() < count && self.cat.places[place].class == class && self.take(place, mask) {
                places.push(place);
            }
        }
        let row = if places.len() == count { self.next_row.fetch_add(1, SeqCst) } else { usize::MAX };
        if row >= self.rows.len() {
            for place in &places {
                self.masks[*place].fetch_and(!mask, SeqCst);
            }
            return Err(if row == usize::MAX { (409, "NoPlace") } else { (507, "RowsFull") });
        }
        let total = self.cat.price(segment, class, count as u64, 0);
        *self.rows[row].lock().unwrap() = Some(Booking { retailer, limit: now + CONFIRM_SECONDS, total, segment, places, status: "PREBOOKED" });
        Ok(row)
    }

    fn on_booking(&self, retailer: u64, id: &str, change: impl Fn(&mut Booking) -> bool, out: &mut Vec<u8>) -> Result<u64, (u64, &'static str)> {
        let unknown = (404, "UnknownBooking");
        let row: usize = id.strip_prefix('B').and_then(|digits| digits.parse().ok()).ok_or(unknown)?;
        let mut held = self.rows.get(row).ok_or(unknown)?.lock().unwrap();
        let booking = held.as_mut().filter(|booking| booking.retailer == retailer).ok_or(unknown)?;
        if !change(booking) {
            return Err((409, "WrongState"));
        }
        self.write_booking(out, row, booking);
        Ok(200)
    }

    fn write_booking(&self, out: &mut Vec<u8>, row: usize, booking: &Booking) {
        out.extend(b"{\"confirmableUntil\":");
        write_moment(out, booking.limit);
        let _ = write!(out, ",\"id\":\"B{row:06}\",\"price\":");
        self.write_amount(out, booking.total);
        out.extend(b",\"reservations\":[");
        let run = &self.cat.runs[booking.segment.run];
        let code = |stop: usize| &self.cat.codes[run.stops[stop].station];
        for (number, place) in booking.places.iter().enumerate() {
            let place = &self.cat.places[*place];
            let (comma, from, to) = (if number > 0 { "," } else { "" }, code(booking.segment.from), code(booking.segment.to));
            let _ = write!(out, "{comma}{{\"coach\":{},\"from\":\"{from}\",\"place\":{},\"run\":{},\"to\":\"{to}\",\"train\":{}}}", place.coach, place.label, place.run, run.train);
        }
        let _ = write!(out, "],\"settled\":false,\"status\":\"{}\"}}", booking.status);
    }

    fn write_amount(&self, out: &mut Vec<u8>, amount: u64) {
        let _ = write!(out, "{{\"amount\":{amount},\"currency\":\"{}\",\"scale\":2}}", self.cat.currency);
    }

    fn write_places(&self, out: &mut Vec<u8>, segment: Segment) {
        out.extend(b"{\"places\":[");
        for (turn, number) in self.cat.runs[segment.run].places.clone().enumerate() {
            let [before, after] = &self.cat.places[number].shown;
            let free = self.masks[number].load(SeqCst) & mask_of(segment) == 0;
            for part in [if turn > 0 { "," } else { "" }, before, if free { "true" } else { "false" }, after] {
                out.extend(part.as_bytes());
            }
        }
        out.extend(b"]}");
    }

    fn write_offers(&self, out: &mut Vec<u8>, body: &Json, now: u64) -> Option<u64> {
        let (adults, children, class) = (body.number("adults")?, body.number("children").unwrap_or(0), class_of(body)?);
        let station = |name: &str| self.cat.numbers.get(body.text(name)?).copied();
        let earliest = read_moment(body.text("earliest")?)?;
        let latest = body.text("latest").map_or(Some(earliest + WINDOW), read_moment)?;
        out.extend(b"{\"offers\":[");
        for (turn, trip) in self.cat.trips(station("origin")?, station("destination")?, earliest.max(now), latest).iter().enumerate() {
            let comma = if turn > 0 { "," } else { "" };
            let _ = write!(out, "{comma}{{\"id\":\"O{now}-{adults}-{children}-{}-0-", class + 1);
            for (turn, segment) in trip.iter().enumerate() {
                let _ = write!(out, "{}{}.{}.{}", if turn > 0 { "_" } else { "" }, segment.run, segment.from, segment.to);
            }
            out.extend(b"\",\"price\":");
            self.write_amount(out, trip.iter().map(|segment| self.cat.price(*segment, class, adults, children)).sum());
            out.extend(b",\"segments\":[");
            for (turn, segment) in trip.iter().enumerate() {
                out.extend(if turn > 0 { &b","[..] } else { b"" });
                self.write_segment(out, *segment, class);
            }
            out.extend(b"],\"validUntil\":");
            write_moment(out, now + QUOTE_SECONDS);
            out.push(b'}');
        }
        out.extend(b"]}");
        Some(200)
    }

    fn write_segment(&self, out: &mut Vec<u8>, segment: Segment, class: usize) {
        let run = &self.cat.runs[segment.run];
        let (from, to) = (&run.stops[segment.from], &run.stops[segment.to]);
        let is_free = |place: &usize| self.cat.places[*place].class == class && self.masks[*place].load(SeqCst) & mask_of(segment) == 0;
        out.extend(b"{\"arrive\":");
        write_moment(out, to.arrive);
        out.extend(b",\"depart\":");
        write_moment(out, from.depart);
        let (free, codes) = (run.places.clone().filter(is_free).count(), &self.cat.codes);
        let _ = write!(out, ",\"free\":{free},\"from\":\"{}\",\"run\":{},\"to\":\"{}\",\"train\":{}}}", codes[from.station], segment.run, codes[to.station], run.train);
    }

    /// The status of the answer, whose body is written, or the refusal.
    fn answer(&self, request: &Request, now: u64, out: &mut Vec<u8>) -> Result<u64, (u64, &'static str)> {
        let retailer = *self.cat.keys.get(request.key).ok_or((401, "NoRetailer"))?;
        let bad = (400, "BadField");
        let parts: Vec<&str> = request.path.split('/').skip(1).collect();
        match (request.method, parts.as_slice()) {
            ("POST", ["reservations"]) => {
                let body = read_json(request.body).ok_or((400, "NotJson"))?;
                let span = || self.cat.span_between(body.number("run")? as usize, body.text("from")?, body.text("to")?);
                let (segment, class) = (span().ok_or(bad)?, class_of(&body).ok_or(bad)?);
                let row = self.reserve(retailer, segment, class, body.number("count").unwrap_or(1) as usize, now)?;
                self.write_booking(out, row, self.rows[row].lock().unwrap().as_ref().ok_or(bad)?);
                Ok(201)
            }
            ("GET", ["bookings", id]) => self.on_booking(retailer, id, |_| true, out),
            ("POST", ["bookings", id, "fulfillments"]) => self.on_booking(retailer, id, |booking| turn(booking, "PREBOOKED", "CONFIRMED", now), out),
            ("PATCH", ["bookings", id, "fulfillments"]) => {
                read_json(request.body).filter(|body| body.text("status") == Some("FULFILLED")).ok_or(bad)?;
                self.on_booking(retailer, id, |booking| turn(booking, "CONFIRMED", "FULFILLED", booking.limit), out)
            }
            ("GET", ["runs", run, "places", from, to]) => {
                let segment = run.parse().ok().and_then(|run| self.cat.span_between(run, from, to)).ok_or(bad)?;
                self.write_places(out, segment);
                Ok(200)
            }
            ("POST", ["offers"]) => self.write_offers(out, &read_json(request.body).ok_or((400, "NotJson"))?, now).ok_or(bad),
            _ => Err((404, "NoRoute")),
        }
    }
}

fn turn(booking: &mut Booking, from: &str, to: &'static str, now: u64) -> bool {
    let turned = booking.status == from && now <= booking.limit;
    booking.status = if turned { to } else { booking.status };
    turned
}

// The wire

struct Request<'b> {
    method: &'b str,
    path: &'b str,
    key: &'b str,
    body: &'b [u8],
    last: bool,
}

/// The request at the front, and how long it is; None where it isn't whole.
fn request_at(bytes: &[u8]) -> Option<(Request<'_>, usize)> {
    let end = bytes.windows(4).position(|four| four == b"\r\n\r\n")?;
    let mut lines = std::str::from_utf8(&bytes[..end]).ok()?.split("\r\n");
    let mut words = lines.next()?.split(' ');
    let (method, path) = (words.next()?, words.next()?);
    let (mut key, mut length, mut last) = ("", 0, false);
    for (name, value) in lines.filter_map(|line| line.split_once(':')) {
        match name {
            _ if name.eq_ignore_ascii_case("content-length") => length = value.trim().parse().ok()?,
            _ if name.eq_ignore_ascii_case("retailer-key") => key = value.trim(),
            _ if name.eq_ignore_ascii_case("connection") => last = value.trim().eq_ignore_ascii_case("close"),
            _ => {}
        }
    }
    let body = bytes.get(end + 4..end + 4 + length)?;
    Some((Request { method, path, key, body, last }, end + 4 + length))
}

fn write_answer(out: &mut Vec<u8>, answered: Result<u64, (u64, &str)>, body: &[u8], last: bool) {
    let close = if last { "Connection: close\r\n" } else { "" };
    let _ = match answered {
        Ok(status) => {
            let reason = if status == 201 { "Created" } else { "OK" };
            write!(out, "HTTP/1.1 {status} {reason}\r\nContent-Type: application/json\r\nContent-Length: {}\r\n{close}\r\n", body.len())
        }
        Err((status, code)) => {
            let text = format!("{{\"code\":\"{code}\",\"status\":{status}}}");
            write!(out, "HTTP/1.1 {status} {code}\r\nContent-Type: application/problem+json\r\nContent-Length: {}\r\n{close}\r\n{text}", text.len())
        }
    };
    if answered.is_ok() {
        out.extend(body);
    }
}

/// One connection: all whole requests that are there are answered before more is read.
fn connection(host: &Host, source: &mut impl Read, sink: &mut impl Write, now: impl Fn() -> u64) -> std::io::Result<()> {
    let (mut held, mut piece, mut out, mut body) = (Vec::new(), vec![0; 1 << 16], Vec::new(), Vec::new());
    loop {
        let (mut at, mut last) = (0, false);
        while let Some((request, length)) = request_at(&held[at..]).filter(|_| !last) {
            body.clear();
            let answered = host.answer(&request, now(), &mut body);
            write_answer(&mut out, answered, &body, request.last);
            last = request.last;
            at += length;
            if out.len() > 1 << 16 {
                sink.write_all(&out)?;
                out.clear();
            }
        }
        held.drain(..at);
        sink.write_all(&out)?;
        out.clear();
        let read = if last { 0 } else { source.read(&mut piece)? };
        if read == 0 {
            return sink.flush();
        }
        held.extend(&piece[..read]);
    }
}

fn serve(host: &Host, port: u16, workers: usize, connections: usize) -> std::io::Result<()> {
    let listener = TcpListener::bind(("127.0.0.1", port))?;
    let taken = AtomicUsize::new(0);
    let seconds = || SystemTime::now().duration_since(UNIX_EPOCH).map_or(0, |since| since.as_secs());
    std::thread::scope(|scope| {
        for _ in 0..workers {
            scope.spawn(|| {
                while taken.fetch_add(1, SeqCst) < connections {
                    if let Ok((mut stream, _)) = listener.accept() {
                        let _ = stream.set_nodelay(true);
                        if let Ok(mut sink) = stream.try_clone() {
                            let _ = connection(host, &mut stream, &mut sink, seconds);
                        }
                    }
                }
            });
        }
    });
    Ok(())
}

fn main() -> std::io::Result<()> {
    let words: Vec<String> = std::env::args().skip(1).collect();
    let words: Vec<&str> = words.iter().map(String::as_str).collect();
    let open = |name: &str| Ok::<Host, std::io::Error>(Host::new(read_catalogue(&std::fs::read(name)?).expect("a catalogue")));
    match words.as_slice() {
        ["replay", name, start] => {
            let now = read_moment(start).expect("a moment");
            connection(&open(name)?, &mut std::io::stdin().lock(), &mut std::io::stdout().lock(), || now)
        }
        ["serve", name, port, workers, connections] => {
            let number = |word: &str| word.parse::<usize>().expect("a number");
            serve(&open(name)?, number(port) as u16, number(workers), number(connections))
        }
        _ => panic!("peer replay CATALOGUE START, or peer serve CATALOGUE PORT WORKERS CONNECTIONS"),
    }
}
