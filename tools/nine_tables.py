"""The nine tables of the browser, for tools/tables.py: their rows' fields in the order of their numbers, keys and functions. Rows and keys are those of crates/types and crates/tables."""
from tables import Table, Key, Struct, Header, Plain, Number, Half, Short, Flag, Tag, Part

URL = Part('Url', 6, 'url')
REFERRER = Part('Referrer', 7, 'referrer')
REFERENCE = Part('Reference', 4, 'reference')
SITE = Part('Origin', 2, 'site')


def forgets(line, label, **other):
    """The wrong answers of `clean`: a label that is compared with itself in the line of that label, and what is forgotten."""
    return {'mentioned_compares_the_label_with_itself': (line, line.replace(label, 'l'))} | other


# ---------------------------------------------------------------- windows

windows = Table('windows', 'Windows', 'windows_in', 'Window', 'window_of', ('WINDOWS', 32), [
    ('number', Number('WindowNumber')),
    ('parent', Part('Parent', 2, 'parent')),
    ('opener', Part('Opener', 2, 'opener')),
], Key('WindowNumber', 'h.number', 'ℕ', 'key.0', ['{k}.0']), 'The windows, by number', 'by number',
    mentions='labels::same(l, Label::OfWindow(h.number)) || labels::in_parent(l, h.parent) || labels::in_opener(l, h.opener)',
    gated={'a_33rd_window_taken': ('const CAPACITY: usize = WINDOWS;', 'const CAPACITY: usize = WINDOWS + 1;')},
    edits=forgets('labels::same(l, Label::OfWindow(h.number))', 'Label::OfWindow(h.number)',
                  an_opener_is_forgotten=('labels::in_opener(l, h.opener)', 'labels::in_opener(l, None)'),
                  a_parent_is_forgotten=('labels::in_parent(l, h.parent)', 'labels::in_parent(l, None)')))

# ---------------------------------------------------------------- documents

NUMBERS = """
fn no_numbers() -> DocumentNumbers {
    DocumentNumbers {
        rows: [DocumentNumber(0); 64],
        count: 0,
    }
}

// The numbers of the documents that pass a test.
pub fn numbers<F: Fn(Document) -> bool>(m: &Memory, test: F) -> DocumentNumbers
    requires { F.IsAlwaysCallable test }
    ensures numbers { (p : Document → Bool) → Decides F.post test (λ d. d) p → document_numbers result ≡ map number_of (keep p (table documents_in m.now)) }
    ensures most { result.count ≤ length (table documents_in m.now) }
{
    let mut out = no_numbers();
    let mut j = 0;
    for i in 0..Documents::size(m) {
        let row = Documents::row(m, i);
        if test(row) {
            out.rows[j] = row.number;
            j += 1;
        }
    }
    out.count = j;
    out
}
"""
NUMBER_OF = """-- What is told of documents. Written by tools/tables.py.
use Rattle.tables.specs.Nouns.{DocumentNumber, Document}

abbrev pub number_of : Document → DocumentNumber
number_of d = d.number
"""
documents = Table('documents', 'Documents', 'documents_in', 'Document', 'document_of', ('DOCUMENTS', 64), [
    ('window', Number('WindowNumber')),
    ('place', Plain()),
    ('number', Number('DocumentNumber')),
    ('location', URL),
    ('policy', Tag('Policy', 'policy')),
    ('referrer', REFERRER),
    ('script', Number('Script')),
    ('state', Number('ScriptState')),
    ('active', Flag()),
], Key('(WindowNumber, u32)', '(h.window, h.place)', 'ℕ × ℕ', '(key.0.0, key.1)', ['{k}.0.0', '{k}.1']), 'The documents, by window and place in its history',
    'by window and place in its history', mentions='labels::same(l, Label::OfWindow(h.window)) || labels::same(l, Label::OfDocument(h.number))', offered=NUMBERS, more={'specs/Told.antt': NUMBER_OF},
    edits=forgets('labels::same(l, Label::OfWindow(h.window))', 'Label::OfWindow(h.window)', a_document_is_forgotten=('labels::same(l, Label::OfDocument(h.number))', 'labels::same(l, Label::OfWindow(h.window))')) | {
        'numbers_counts_every_place': ('out.count = j;', 'out.count = 64;'),
        'numbers_counts_none': ('out.count = j;', 'out.count = 0;'),
        'numbers_counts_too_many_where_answers_differ': ('out.rows[j] = row.number;', 'if !test(row) { out.count = 65; return out; } out.rows[j] = row.number;'),
    })

# ---------------------------------------------------------------- cookies

COOKIES_DO = """
fn goes_to(row: HostCookie, h: Host, p: Protocol) -> bool
    ensures { result ≡ goes_to h p row }
{
    row.host == h && labels::goes_over(p, row.cookie)
}

// What a request to a host over a protocol carries.
pub fn sent_to(m: &Memory, h: Host, p: Protocol) -> Jar
    ensures { result ≡ jar (map pair_of (keep (goes_to h p) (table host_cookies_in m.now))) }
{
    let mut out = labels::empty_jar();
    let mut j = 0;
    for i in 0..Cookies::size(m) {
        let row = Cookies::row(m, i);
        if goes_to(row, h, p) {
            out.rows[j] = labels::pair_of(row);
            j += 1;
        }
    }
    out.count = j;
    out
}

// How many cookies an answer or a script sets at most.
const FEW: usize = 4;

// One cookie after the other for a host, up to the first that finds no room; whether all did. Those before it are in.
pub fn put_all(m: &mut Memory, h: Host, few: SetCookies) -> bool
    ensures { PutAll h (cookies_in few) m.old m.new result }
{
    for i in 0..few.count.min(FEW) {
        let row = HostCookie {
            host: h,
            cookie: few.rows[i],
        };
        if !Cookies::put(m, row) {
            return false;
        }
    }
    true
}
"""
SENT_SPECS = """-- Which cookies a request carries. Written by tools/tables.py.
use Rattle.std.specs.Prelude.{Bool, ◌&&◌}
use Rattle.tables.specs.Nouns.{Host, Protocol, HostCookie}
use Rattle.tables.specs.Rows.{same_host, goes_over}

abbrev pub goes_to : Host → Protocol → HostCookie → Bool
goes_to h p row = same_host row.host h && goes_over p row.cookie
"""
FILLED_SPECS = """-- Several cookies put in. Written by tools/tables.py.
use Rattle.std.specs.Prelude.{◌≡◌, Bool, cond, List, [], ◌∷◌, map, ℕ, leb, length}
use Rattle.sorted.specs.Table.{put, insert, Offered}
use Rattle.memory.specs.Rows.{table, end, Within}
use Rattle.tables.specs.Nouns.{Host, Cookie, HostCookie}
use Rattle.tables.specs.Tables.{cookies, key_of, cmp, cap, Edits, changed}
use Rattle.layouts.specs.Tables.{host_cookies_in}

abbrev pub row_for : Host → Cookie → HostCookie
row_for h c = record { host = h; cookie = c }

abbrev pub stored : Host → List Cookie → Edits cookies
stored h cs = map (λ (c : Cookie). put (row_for h c)) cs

-- one after the other, up to the first that finds no room
abbrev pub as_far : Host → List Cookie → List HostCookie → List HostCookie
as_far h [] l = l
as_far h (c ∷ cs) l =
    cond (leb (length (insert (key_of cookies) (cmp cookies) (row_for h c) l)) (cap cookies)) (as_far h cs (insert (key_of cookies) (cmp cookies) (row_for h c) l)) l

-- all go in, if there is room for all; where there is not, those before the first that finds none are in; nothing else changes
pub record PutAll (h : Host) (cs : List Cookie) (m n : List ℕ) (done : Bool) : Type 0 where
  pub rows : Offered (cap cookies) (changed cookies (stored h cs) (table host_cookies_in m)) (table host_cookies_in n) done
  pub left : table host_cookies_in n ≡ as_far h cs (table host_cookies_in m)
  pub rest : Within host_cookies_in.base (end host_cookies_in) m n
"""
FILLED_LAWS = """-- The loop that puts several cookies in, by the law of `sorted` for the rows. Written by tools/tables.py.
use mathlib.Core.Path.{◌≡◌, sym, ap, ◌∙◌}
use mathlib.Core.Bool.{Bool, true, false, cond}
use mathlib.Core.List.{List, ◌∷◌}
use Prim.Native.Nat.{ℕ, ◌+◌, ◌≤◌, ◌<◌, min}
use lib.Dec.{leb}
use lib.ListN.{length, get_or, take, drop}
use Rattle.sorted.specs.Table.{insert}
use Rattle.sorted.proofs.Count.{all-rows, next_row, no_row, taken-fits}
use Rattle.sorted.proofs.Putting.{Putting, put-start, put_next, put-stop, put-end}
use Rattle.memory.specs.Rows.{table, rows, count, end, Within, Put}
use Rattle.memory.proofs.Table.{rows_length}
use Rattle.memory.proofs.Frame.{within_refl, within-then}
use Rattle.tables.specs.Nouns.{Host, Cookie, HostCookie}
use Rattle.tables.specs.Tables.{cookies, key_of, cmp, cap}
use Rattle.layouts.specs.Tables.{host_cookies_in}
use Rattle.cookies.specs.Filled.{row_for, as_far, PutAll}

-- of the `few` those before i are in
pub record Filing (h : Host) (size n : ℕ) (few : List Cookie) (m₀ m : List ℕ) (i : ℕ) : Type 0 where
  pub len : length few ≡ 4
  pub counts : n ≡ min size 4
  pub putting : Putting (key_of cookies) (cmp cookies) (row_for h) (cap cookies) size 4 n few (table host_cookies_in m₀) (table host_cookies_in m) i
  pub far : as_far h (drop i (take n few)) (table host_cookies_in m) ≡ as_far h (take size few) (table host_cookies_in m₀)
  pub rest : Within host_cookies_in.base (end host_cookies_in) m₀ m

module _ {h : Host} {size n : ℕ} {few : List Cookie} {m₀ : List ℕ} where
  pub file-start : length few ≡ 4 → n ≡ min size 4 → Filing h size n few m₀ m₀ 0
  file-start l e = record {
    len = l;
    counts = e;
    putting = put-start _ _ _ _ _ _ _ _ _ l e (taken-fits (count host_cookies_in m₀) (cap cookies) (rows host_cookies_in m₀) (rows_length host_cookies_in m₀));
    far = ap (λ (cs : List Cookie). as_far h cs (table host_cookies_in m₀)) (all-rows size 4 n few l e);
    rest = within_refl _ _ _;
  }

  module _ {m m₁ : List ℕ} {i : ℕ} {done : Bool} (d : Cookie) (s : Filing h size n few m₀ m i) (p : Put host_cookies_in (key_of cookies) (cmp cookies) (row_for h (get_or few i d)) m m₁ done) (b : i < n) where
    next : as_far h (get_or few i d ∷ drop (i + 1) (take n few)) (table host_cookies_in m) ≡ as_far h (take size few) (table host_cookies_in m₀)
    next = ap (λ (cs : List Cookie). as_far h cs (table host_cookies_in m)) (sym (next_row size 4 n few s.len s.counts i d b)) ∙ s.far

    pub file-next : done ≡ true → Filing h size n few m₀ m₁ (i + 1)
    file-next e =
        let f : leb (length (insert (key_of cookies) (cmp cookies) (row_for h (get_or few i d)) (table host_cookies_in m))) (cap cookies) ≡ true = sym p.rows.had ∙ e in
        let t : List HostCookie = insert (key_of cookies) (cmp cookies) (row_for h (get_or few i d)) (table host_cookies_in m) in
        record {
          len = s.len;
          counts = s.counts;
          putting = put_next _ _ _ _ _ _ _ _ _ s.putting d (table host_cookies_in m₁) b (p.rows.rows e) f;
          far = ap (as_far h (drop (i + 1) (take n few))) (p.rows.rows e) ∙ sym (ap (λ (x : Bool). cond x (as_far h (drop (i + 1) (take n few)) t) (table host_cookies_in m)) f) ∙ next;
          rest = within-then s.rest p.rest;
        }

    pub file-stop : done ≡ false → PutAll h (take size few) m₀ m₁ false
    file-stop e =
        let f : leb (length (insert (key_of cookies) (cmp cookies) (row_for h (get_or few i d)) (table host_cookies_in m))) (cap cookies) ≡ false = sym p.rows.had ∙ e in
        let t : List HostCookie = insert (key_of cookies) (cmp cookies) (row_for h (get_or few i d)) (table host_cookies_in m) in
        record {
          rows = put-stop _ _ _ _ _ _ _ _ _ s.putting d (table host_cookies_in m₁) b f;
          left = ap (table host_cookies_in) (p.same e) ∙ sym (ap (λ (x : Bool). cond x (as_far h (drop (i + 1) (take n few)) t) (table host_cookies_in m)) f) ∙ next;
          rest = within-then s.rest p.rest;
        }

  pub file-end : {m : List ℕ} {i : ℕ} → Filing h size n few m₀ m i → n ≤ i → PutAll h (take size few) m₀ m true
  file-end {m} {i} s b = record {
    rows = put-end _ _ _ _ _ _ _ _ _ s.putting b;
    left = ap (λ (cs : List Cookie). as_far h cs (table host_cookies_in m)) (sym (no_row size 4 n few s.len s.counts i b)) ∙ s.far;
    rest = s.rest;
  }
"""
cookies = Table('cookies', 'Cookies', 'host_cookies_in', 'HostCookie', 'host_cookie_of', ('COOKIES', 64), [
    ('host', Half('Host')),
    ('cookie', Struct('Cookie', [
        ('name', Struct('CookieName', [('prefixed', Flag()), ('number', Short())])),
        ('value', Number('CookieValue')),
        ('secure', Flag()),
        ('session', Flag()),
        ('httponly', Flag()),
    ])),
], Key('(Host, CookieName)', '(h.host, h.cookie.name)', 'ℕ × (Bool × ℕ)', '(key.0.0, (key.1.prefixed, key.1.number))', ['{k}.0.0', '!{k}.1.prefixed', '{k}.1.number']),
    'The cookies, by host and name', 'by host and name', offered=COOKIES_DO,
    more={'specs/Sent.antt': SENT_SPECS, 'specs/Filled.antt': FILLED_SPECS, 'proofs/Filled.antt': FILLED_LAWS}, edits={
        'sent_to_leaves_gaps': ('out.rows[j] = labels::pair_of(row);', 'out.rows[i] = labels::pair_of(row);'),
        'sent_to_sends_secure_over_plain': ('labels::goes_over(p, row.cookie)', 'labels::goes_over(Protocol::Secure, row.cookie)'),
        'sent_to_sends_another_hosts': ('row.host == h &&', 'row.host.0 <= h.0 &&'),
        'put_all_hides_that_one_found_no_room': ('            return false;', '            return true;'),
        'put_all_forgets_the_fourth': ('few.count.min(FEW)', 'few.count.min(3)'),
    })

# ---------------------------------------------------------------- storage

local_storage = Table('local_storage', 'LocalStorage', 'local_in', 'LocalValue', 'local_value_of', ('LOCAL_STORAGE', 32), [
    ('origin', SITE),
    ('value', Number('Stored')),
], Key('Origin', 'h.origin', 'ℕ × Bool', '(key.host.0, is_secure key.protocol)', ['{k}.host.0', '!labels::is_secure({k}.protocol)']),
    'What scripts keep in local storage, by origin', 'by origin', component='localStorage')

session_storage = Table('session_storage', 'SessionStorage', 'session_in', 'SessionValue', 'session_value_of', ('SESSION_STORAGE', 32), [
    ('origin', SITE),
    ('top', Number('WindowNumber')),
    ('value', Number('Stored')),
], Key('(Origin, WindowNumber)', '(h.origin, h.top)', 'ℕ × (Bool × ℕ)', '(key.0.host.0, (is_secure key.0.protocol, key.1.0))',
       ['{k}.0.host.0', '!labels::is_secure({k}.0.protocol)', '{k}.1.0']),
    'What scripts keep in session storage, by origin and top-level window', 'by origin and top-level window', component='sessionStorage',
    mentions='labels::same(l, Label::OfWindow(h.top))', edits=forgets('labels::same(l, Label::OfWindow(h.top))', 'Label::OfWindow(h.top)',
                                                          a_session_row_is_forgotten=('labels::same(l, Label::OfWindow(h.top))', 'l == Label::OfWindow(WindowNumber(0))')))

# ---------------------------------------------------------------- inputs

inputs = Table('inputs', 'Inputs', 'inputs_in', 'Input', 'input_of', ('INPUTS', 64), [
    ('document', Number('DocumentNumber')),
    ('arrival', Plain()),
    ('news', Part('News', 6, 'news')),
], Key('(DocumentNumber, u32)', '(h.document, h.arrival)', 'ℕ × ℕ', '(key.0.0, key.1)', ['{k}.0.0', '{k}.1']), 'The inputs of scripts, by document and arrival',
    'by document and arrival', mentions='labels::same(l, Label::OfDocument(h.document)) || labels::in_news(l, h.news)',
    edits=forgets('labels::same(l, Label::OfDocument(h.document))', 'Label::OfDocument(h.document)',
                  a_sender_is_forgotten=('labels::in_news(l, h.news)', 'labels::in_news(l, types::rows::News::Answered(None, types::answers::Body::Number(0)))')))

# ---------------------------------------------------------------- what waits

REQUEST = Struct('Request', [
    ('number', Number('RequestNumber')),
    ('method', Tag('Method', 'method')),
    ('host', Half('Host')),
    ('path', Half('Path')),
    ('parameters', Number('Parameters')),
    ('cookies', Header()),
    ('origin', Part('OriginHeader', 3, 'origin')),
    ('referrer', REFERRER),
    ('body', Number('Data')),
])
OF_REFERENCE = ('labels::in_reference(l, h.reference)', 'labels::in_reference(l, types::Reference::Req(types::WindowNumber(0)))')

pending_dns = Table('pending_dns', 'PendingDns', 'questions_in', 'Question', 'question_of', ('PENDING_DNS', 16), [
    ('number', Number('DnsNumber')),
    ('reference', REFERENCE),
    ('request', REQUEST),
    ('url', URL),
], Key('DnsNumber', 'h.number', 'ℕ', 'key.0', ['{k}.0'], 'λ h. h.number.0'), "The requests that wait for their host's address, by number",
    'by dns number; behind its head each row has its Cookie header', component='pendingDNS',
    mentions='labels::same(l, Label::OfDns(h.number)) || labels::same(l, Label::OfRequest(h.request)) || labels::in_reference(l, h.reference)',
    head=[('number', 'number'), ('reference', 'reference'), ('request', 'request.number')], meanings="""
abbrev pub head_mentions : Head → List Label
head_mentions h = (dns, h.number.0) ∷ ((request, h.request.0) ∷ (leads h.reference ∷ []))
""", edits=forgets('labels::same(l, Label::OfDns(h.number))', 'Label::OfDns(h.number)', a_request_is_forgotten=('labels::same(l, Label::OfRequest(h.request))', 'labels::same(l, Label::OfDns(h.number))'),
                   a_reference_is_forgotten=OF_REFERENCE))

pending_requests = Table('pending_requests', 'PendingRequests', 'requests_in', 'Waiting', 'waiting_of', ('PENDING_REQUESTS', 16), [
    ('reference', REFERENCE),
    ('request', REQUEST),
    ('url', URL),
    ('seal', Part('Seal', 2, 'seal')),
    ('address', Half('Address')),
], Key('RequestNumber', 'h.request', 'ℕ', 'key.0', ['{k}.0'], 'λ h. h.request.0'), 'The requests that wait for their answer, by number',
    'by request number; behind its head each row has its Cookie header', component='pendingRequests',
    mentions='labels::same(l, Label::OfRequest(h.request)) || labels::in_seal(l, h.seal) || labels::in_reference(l, h.reference)',
    head=[('reference', 'reference'), ('request', 'request.number'), ('seal', 'seal')], meanings="""
abbrev pub head_mentions : Head → List Label
head_mentions h = (request, h.request.0) ∷ (seal_label h.seal ++ (leads h.reference ∷ []))
""", edits=forgets('labels::same(l, Label::OfRequest(h.request))', 'Label::OfRequest(h.request)', a_key_is_forgotten=('labels::in_seal(l, h.seal)', 'labels::in_seal(l, None)'),
                   a_reference_is_forgotten=OF_REFERENCE))

# ---------------------------------------------------------------- sts

STRICT = """
// Whether a host is spoken to over S alone.
pub fn strict(m: &Memory, h: Host) -> bool
    ensures { result ≡ is_some (at (key_of sts) (cmp sts) h.0 (table sts_in m.now)) }
{
    Sts::get(m, h).is_some()
}
"""
sts = Table('sts', 'Sts', 'sts_in', 'StrictHost', 'strict_host_of', ('STS', 32), [('host', Half('Host'))], Key('Host', 'h.host', 'ℕ', 'key.0', ['{k}.0']),
            'The hosts that are spoken to over S alone', 'by host', offered=STRICT, edits={
                'strict_asks_for_the_others': ('Sts::get(m, h).is_some()', 'Sts::get(m, h).is_none()'),
                'strict_asks_for_another_host': ('Sts::get(m, h).is_some()', 'Sts::get(m, Host(0)).is_some()'),
            })

TABLES = [windows, documents, cookies, local_storage, session_storage, inputs, pending_dns, pending_requests, sts]
