"""Units: what of a comment is one."""
import re

LONGEST = 24  # characters
WORDS = set("""
    % ppm ppb per percent degree degrees deg radian radians rad turn turns revolution revolutions rpm
    k c f kelvin celsius fahrenheit m mm cm km um metre metres meter meters inch inches foot feet mile miles
    l ml litre litres liter liters gallon gallons g mg kg gram grams t tonne tonnes pound pounds
    s ms us min h second seconds minute minutes hour hours day days hz khz mhz hertz
    v mv a ma w kw va var j kj kwh volt volts ampere amperes amp amps watt watts ohm ohms joule joules farad henry tesla
    n kn nm newton newtons pa hpa kpa mpa pascal pascals bar mbar psi atm knot knots
    lx lux lumen lumens candela mol ph db decibel decibels
    count counts step steps pulse pulses bit bits byte bytes part parts tenth tenths hundredth hundredths thousandth
    thousandths cubic square
""".split())
PREFIX = re.compile(r"(micro|milli|centi|deci|hecto|kilo|mega)(?=\w{3})")


def is_unit(words):
    """Whether words are a unit: they are few, and begin with one that is known. A letter stands alone or as in m/s,
    since `a flag` has no amperes."""
    if not words or len(words) > LONGEST or re.search(r"[=:;?!\"]|\.\.", words):
        return False
    first = re.split(r"[/*^0-9²³]", words.split()[0].lower())[0]
    return words[0] == "°" or (PREFIX.sub("", first) in WORDS and (len(first) > 1 or " " not in words or first == "%"))


def unit_of(comment):
    """The last part between commas that is a unit, or nothing."""
    return next((it for it in map(str.strip, comment.split(",")[::-1]) if is_unit(it)), "")
