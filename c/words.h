/* All tables of names: notations, prefixes, units, bases, signs and other spellings, most of them by the code in the library's header. */
#ifndef WORDS_H
#define WORDS_H

#include "../include/thalinguze.h"

#define COUNT(table) (sizeof(table) / sizeof((table)[0]))
/* How many notations there are; the first has the number 1. */
enum { NOTATIONS = THALINGUZE_STARLINK };

static const struct notation_word {
    const char *argument; /* as the command takes it, beside the name */
    const char *name;     /* as a person says it */
    const char *signs;    /* that its labels have, besides letters and digits */
    const char *joints, *spaces, *powers, *factors, *slashes; /* its rules, each to follow "In FITS", or NULL */
    const char *examples[3];
} notation_words[NOTATIONS + 1] = {
    [THALINGUZE_FITS] = {"fits", "FITS", "()/*.+-^ ", "one space, a star or a point joins units",
        "one space may join units, and there are no other spaces", "an exponent that is not whole is in brackets",
        "a power of ten is 10, two stars and its exponent",
        "one slash is allowed, outside groups and not after a power of ten, and one unit or group after it",
        {"kg m2/s3", "10**3 erg/(s cm2)", "Hz(1/2)"}},
    [THALINGUZE_OGIP] = {"ogip", "OGIP", "()/*.+- ", "a space or a star joins units",
        "there are no spaces inside brackets or before an exponent", "an exponent comes after two stars, in brackets if it is not whole",
        "a power of ten is 10, two stars and its exponent", 0, {"kg m**2/s**3", "10**3 erg/(s cm**2)", "Hz**(1/2)"}},
    [THALINGUZE_CDS] = {"cds", "CDS", "()/*.+-%", "a point joins units", "there are no spaces",
        "an exponent is a whole number straight after its unit", "a power of ten is 10 and its exponent with plus or minus, without spaces",
        0, {"kg.m2/s3", "10+3J/(s.cm2)", "km/s/Mpc"}},
    [THALINGUZE_VOUNITS] = {"vou", "VOUnits", "()/*.+-'", "a point joins units", "there are no spaces",
        "an exponent comes after two stars, in brackets if it is not whole", "a power of ten is 10, two stars and its exponent, without spaces",
        "one slash is allowed, after a unit, and one unit or group after it", {"kg.m**2/s**3", "10**3erg/(s.cm**2)", "Hz**(1/2)"}},
    [THALINGUZE_STARLINK] = {"starlink", "Starlink", "()/*.+-", "a star joins units", "there are no spaces",
        "an exponent comes after two stars, in brackets if it is not whole",
        "no number comes before a unit; take it out and multiply the values by it",
        "one slash is allowed, after a unit and outside groups, and one unit or group after it", {"kg*m**2/s**3", "erg/(s*cm**2)", "Hz**(1/2)"}},
};
enum { PREFIXES = THALINGUZE_PREFIX_YOCTO };
static const struct prefix_word {
    const char *symbol, *word;
    int power; /* of ten */
} prefix_words[PREFIXES + 1] = {
    {"", "", 0}, {"da", "deca", 1}, {"h", "hecto", 2}, {"k", "kilo", 3}, {"M", "mega", 6}, {"G", "giga", 9},
    {"T", "tera", 12}, {"P", "peta", 15}, {"E", "exa", 18}, {"Z", "zetta", 21}, {"Y", "yotta", 24},
    {"d", "deci", -1}, {"c", "centi", -2}, {"m", "milli", -3}, {"u", "micro", -6}, {"n", "nano", -9},
    {"p", "pico", -12}, {"f", "femto", -15}, {"a", "atto", -18}, {"z", "zepto", -21}, {"y", "yocto", -24},
};
/* A unit as a person says it, and from SYMBOL on its names in labels. */
enum { WORD, SYMBOL, OTHER, THIRD, WORDS };
static const char *const unit_words[THALINGUZE_UNITS + 1][WORDS] = {
    {"unknown", "?"}, {"metre", "m"}, {"gram", "g"}, {"second", "s"}, {"ampere", "A"}, {"kelvin", "K"}, {"mole", "mol"}, {"candela", "cd"},
    {"radian", "rad"}, {"steradian", "sr"}, {"hertz", "Hz"}, {"newton", "N"}, {"pascal", "Pa"}, {"joule", "J"}, {"watt", "W"},
    {"coulomb", "C"}, {"volt", "V"}, {"siemens", "S"}, {"farad", "F"}, {"weber", "Wb"}, {"tesla", "T"}, {"henry", "H"}, {"lumen", "lm"},
    {"lux", "lx"}, {"minute", "min"}, {"hour", "h"}, {"day", "d"}, {"year", "yr", "a"}, {"degree", "deg"}, {"arcminute", "arcmin"},
    {"arcsecond", "arcsec"}, {"astronomical unit", "AU"}, {"parsec", "pc"}, {"electronvolt", "eV"}, {"jansky", "Jy"}, {"barn", "barn"},
    {"magnitude", "mag"}, {"byte", "byte"}, {"milliarcsecond", "mas"}, {"pixel", "pixel", "pix"}, {"count", "count", "ct"},
    {"rydberg", "Ry"}, {"solar mass", "solMass"}, {"solar luminosity", "solLum"}, {"solar radius", "solRad"}, {"debye", "D"},
    {"Sun", "Sun"}, {"bit", "bit"}, {"ohm", "ohm", "Ohm"}, {"erg", "erg"}, {"gauss", "G"}, {"light year", "lyr"},
    {"photon", "photon", "ph"}, {"channel", "chan"}, {"bin", "bin"}, {"voxel", "voxel"}, {"atomic mass unit", "u"}, {"rayleigh", "R"},
    {"analogue-to-digital unit", "adu"}, {"beam", "beam"}, {"angstrom", "angstrom", "Angstrom", "Ang"}, {"percent", "%"},
};
/* The bases, each a unit of its own, and the primes of a scale. */
static const char *const base_symbols[THALINGUZE_BASES] = {
    "m", "g", "s", "A", "K", "mol", "cd", "rad", "sr", "arcsec", "bit", "AU", "pc", "eV", "mag", "pixel", "count", "Ry", "solMass", "solLum",
    "solRad", "D", "Sun", "lyr", "photon", "chan", "bin", "voxel", "u", "R", "adu", "beam",
};
static const int prime_words[THALINGUZE_PRIMES] = {2, 3, 5, 487};
/* Spellings that no notation has, and a usual one of the same unit. Capitals, full names and a plural s are seen to in spelling.c. */
static const char *const spelling_words[][2] = {
    {"sec", "s"}, {"hr", "h"}, {"meter", "m"}, {"micron", "um"}, {"cts", "count"}, {"cnt", "count"}, {"px", "pixel"},
    {"phot", "photon"}, {"ly", "lyr"}, {"Msun", "solMass"}, {"Lsun", "solLum"}, {"Rsun", "solRad"}, {"B", "byte"},
    {"asec", "arcsec"}, {"amin", "arcmin"}, {"bm", "beam"}, {"amu", "u"}, {"ster", "sr"},
};
/* Names that people put before a bracket for a function. */
static const char *const function_words[] = {"log10", "log", "ln", "lg", "exp", "sqrt", "dex", "dB", "mag", "sin", "cos", "tan", "abs"};

/* Signs by their Unicode number: the name, and what labels have instead, a unit by its symbol, or NULL. */
static const struct sign_word {
    unsigned code;
    const char *name, *instead;
} sign_words[] = {
    {0x9, "a tab", " "}, {0xa, "the end of a line", " "}, {0xd, "a carriage return", " "}, {'!', "an exclamation mark", 0},
    {'"', "a double quote", 0}, {'#', "a number sign", 0}, {'$', "a dollar sign", ""}, {'%', "a percent sign", 0}, {'&', "an ampersand", 0},
    {'\'', "a quote", 0}, {',', "a comma", 0}, {':', "a colon", 0}, {';', "a semicolon", 0}, {'<', "a less-than sign", 0},
    {'=', "an equals sign", 0}, {'>', "a greater-than sign", 0}, {'?', "a question mark", 0}, {'@', "an at sign", 0},
    {'[', "a square bracket", 0}, {'\\', "a backslash", 0}, {']', "a square bracket", 0}, {'^', "a caret", 0}, {'_', "an underscore", 0},
    {'`', "a grave accent", 0}, {'{', "a curly bracket", "("}, {'|', "a vertical bar", 0}, {'}', "a curly bracket", ")"},
    {'~', "a tilde", 0}, {0xa0, "a non-breaking space", " "}, {0x2009, "a thin space", " "}, {0x202f, "a narrow non-breaking space", " "},
    {0xb5, "a micro sign", "u"}, {0x3bc, "the Greek letter mu", "u"}, {0xb7, "a raised point", "."}, {0x22c5, "a raised point", "."},
    {0x2022, "a bullet", "."}, {0xd7, "a multiplication sign", "*"}, {0x2044, "a fraction slash", "/"}, {0x2212, "a minus sign", "-"},
    {0x2011, "a non-breaking hyphen", "-"}, {0x2013, "an en dash", "-"}, {0x2014, "an em dash", "-"}, {0x207b, "a superscript minus", "-"},
    {0x207a, "a superscript plus", "+"}, {0x2070, "a superscript zero", "0"}, {0xb9, "a superscript one", "1"},
    {0xb2, "a superscript two", "2"}, {0xb3, "a superscript three", "3"}, {0x2074, "a superscript four", "4"},
    {0x2075, "a superscript five", "5"}, {0x2076, "a superscript six", "6"}, {0x2077, "a superscript seven", "7"},
    {0x2078, "a superscript eight", "8"}, {0x2079, "a superscript nine", "9"}, {0x2018, "a curly quote", "'"},
    {0x2019, "a curly quote", "'"}, {0x201c, "a curly double quote", "\""}, {0x201d, "a curly double quote", "\""},
    {0xb0, "a degree sign", "deg"}, {0x2032, "a prime for minutes of arc", "arcmin"},
    {0x2033, "a double prime for seconds of arc", "arcsec"}, {0xc5, "the letter A with a ring", "angstrom"},
    {0x212b, "an angstrom sign", "angstrom"}, {0x3a9, "the Greek letter omega", "ohm"}, {0x2126, "an ohm sign", "ohm"},
    {0x2299, "a sign for the Sun", 0}, {0x2609, "a sign for the Sun", 0}, {0x2103, "a sign for degrees Celsius", 0},
    {0x221a, "a root sign", 0}, {0x2030, "a per mille sign", 0},
};

#endif
