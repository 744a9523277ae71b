"""The policies of the cleaner, for `cleaned`: what each allows. Written by hand, from the lists that
crates/html_clean_policy/specs/Ready.antt promises, and not from the tables of the code."""

from typing import NamedTuple


class Policy(NamedTuple):
    """What a policy allows."""

    elements: frozenset[str]
    # on all of the elements, and on one of them
    attrs: frozenset[str]
    own_attrs: dict[str, frozenset[str]]
    schemes: frozenset[str]
    # whether URLs without a scheme stay
    relative: bool
    properties: frozenset[str]
    # before ids and names
    prefix: str
    # the `rel` of links
    rel: str | None

    def attrs_of(self, name: str) -> list[str]:
        """Returns the attributes that an element may have."""
        rel = {"rel"} if self.rel is not None and name in ("a", "area", "form") else set()
        return sorted(self.attrs | self.own_attrs.get(name, frozenset()) | rel)


def words(text: str) -> frozenset[str]:
    """Returns the words of a text."""
    return frozenset(text.split())


# These go with all that is in them, so what they hold is not missed.
DROPPED = words(
    """script style iframe object embed applet template svg math base meta link title textarea plaintext noscript xmp noembed
    noframes frameset"""
)
SCHEMES = words("http https mailto")

TEXT = Policy(frozenset(), frozenset(), {}, frozenset(), False, frozenset(), "", None)
INLINE = Policy(
    elements=words(
        """a abbr b bdi bdo br cite code data del dfn em i ins kbd mark q rp rt ruby s samp small span strong sub sup time u var
        wbr"""
    ),
    attrs=words("dir lang title"),
    own_attrs={"a": words("href"), "data": words("value"), "del": words("cite datetime"), "ins": words("cite datetime"),
               "q": words("cite"), "time": words("datetime")},
    schemes=SCHEMES,
    relative=True,
    properties=frozenset(),
    prefix="",
    rel="nofollow",
)
ARTICLE = Policy(
    elements=words(
        """a abbr b bdo blockquote br caption cite code dd del details dfn div dl dt em figcaption figure h1 h2 h3 h4 h5 h6 h7 h8
        hr i img ins kbd li mark ol p picture pre q rp rt ruby s samp small source span strike strong sub summary sup table
        tbody td tfoot th thead time tr tt ul var wbr"""
    ),
    attrs=words(
        """abbr accept accept-charset accesskey action align alt aria-describedby aria-hidden aria-label aria-labelledby axis
        border cellpadding cellspacing char charoff charset checked clear cols colspan compact coords datetime dir disabled
        enctype for frame headers height hreflang hspace id ismap itemprop label lang maxlength media method multiple nohref
        noshade nowrap open progress prompt readonly rel rev role rows rowspan rules scope selected shape size span start
        summary tabindex title type usemap valign value vspace width"""
    ),
    own_attrs={"a": words("href name"), "blockquote": words("cite"), "del": words("cite"), "div": words("itemscope itemtype"),
               "img": words("loading longdesc name src"), "ins": words("cite"), "q": words("cite"), "source": words("srcset")},
    schemes=SCHEMES,
    relative=True,
    properties=frozenset(),
    prefix="user-content-",
    rel="nofollow",
)
MAIL = Policy(
    elements=words(
        """a abbr address b big blockquote br caption center cite code col colgroup dd del dfn div dl dt em font h1 h2 h3 h4 h5
        h6 hr i img ins kbd li ol p pre q s samp small span strike strong sub sup table tbody td tfoot th thead tr tt u ul
        var wbr"""
    ),
    attrs=words(
        """abbr align alt axis bgcolor border cellpadding cellspacing char charoff clear color colspan compact dir face frame
        height hspace lang noshade nowrap rowspan rules scope size span start style summary title type valign value vspace
        width"""
    ),
    own_attrs={"a": words("href"), "blockquote": words("cite"), "img": words("src")},
    schemes=SCHEMES | words("cid tel"),
    relative=False,
    properties=words(
        """background-color border border-bottom border-bottom-color border-bottom-style border-bottom-width border-collapse
        border-color border-left border-left-color border-left-style border-left-width border-right border-right-color
        border-right-style border-right-width border-spacing border-style border-top border-top-color border-top-style
        border-top-width border-width caption-side clear color direction empty-cells float font font-family font-size
        font-style font-variant font-weight height letter-spacing line-height list-style-position list-style-type margin
        margin-bottom margin-left margin-right margin-top max-height max-width min-height min-width overflow padding
        padding-bottom padding-left padding-right padding-top table-layout text-align text-decoration text-indent
        text-transform vertical-align white-space width word-break word-spacing word-wrap"""
    ),
    prefix="",
    rel="nofollow noopener noreferrer",
)

POLICIES = {"text": TEXT, "inline": INLINE, "article": ARTICLE, "mail": MAIL}
