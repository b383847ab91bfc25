#!/usr/bin/env python3
"""Writes the lists of labels that the benchmark reads, bench/labels-NOTATION.txt: 1,000 in each notation.

The quantities are those of catalogues and papers, each with how often it is drawn. How a quantity is written differs as people's manners do."""
import random

COUNT = 1000

# notations that have the quantity (f FITS, o OGIP, c CDS, v VOUnits), how often, the units
QUANTITIES = '''
focv 16 mag;  focv 14 deg;  focv 30 km s-1;  fcv 9 mas;  fcv 26 mas yr-1;  focv 7 arcsec;  focv 3 arcmin;  focv 6 d;  focv 5 s;
focv 5 yr;  focv 7 Jy;  focv 8 mJy;  focv 5 K;  focv 4 pc;  focv 6 kpc;  focv 5 Mpc;  focv 5 nm;  focv 4 um;  focv 4 GHz;
focv 3 MHz;  focv 4 keV;  focv 2 TeV;  focv 3 h;  focv 2 min;  focv 1 AU;  fcv 5 solMass;  fcv 3 solLum;  fcv 2 solRad;
fcv 12 solMass yr-1;  fcv 6 solMass pc-2;  fcv 6 solLum pc-2;  fcv 2 Sun;  focv 6 mag arcsec-2;  focv 10 km s-1 Mpc-1;
focv 9 K km s-1;  focv 8 m s-1;  focv 8 m s-2;  focv 3 cm-2;  focv 4 cm-3;  focv 2 kpc-3;  focv 5 Mpc-3 mag-1;  fv 26 Jy beam-1;
fv 14 mJy beam-1;  fv 9 Jy beam-1 km s-1;  focv 8 Jy km s-1;  focv 8 W m-2;  focv 8 W m-2 Hz-1;  focv 6 W m-2 um-1;  focv 5 MJy sr-1;
focv 6 W m-2 sr-1;  focv 5 W m-2 nm-1 sr-1;  fov 24 erg s-1 cm-2;  fov 9 erg s-1;  fv 26 erg s-1 cm-2 Angstrom-1;
o 22 erg s-1 cm-2 angstrom-1;  fov 8 erg s-1 cm-2 Hz-1;  fov 7 erg s-1 cm-2 arcsec-2;  fv 7 Angstrom;  ov 4 angstrom;  fo 16 count s-1;
fv 8 ct s-1;  c 14 ct s-1;  fov 4 count;  fo 12 photon s-1 cm-2;  v 6 ph s-1 cm-2;  fo 9 photon s-1 cm-2 keV-1;  fov 8 count s-1 pixel-1;
fv 3 adu;  fv 6 adu s-1;  fov 4 pixel;  c 4 pix;  fo 6 arcsec pixel-1;  c 6 arcsec pix-1;  fo 8 count s-1 keV-1 cm-2;  c 22 mW m-2;
c 16 mW m-2 nm-1;  c 9 W m-3;  c 5 %;  focv 2 kg;  focv 6 g cm-3;  focv 8 kg m-3;  focv 5 J m-3;  focv 4 J kg-1 K-1;  focv 4 N m;
focv 1 Pa;  focv 1 hPa;  focv 4 MPa s;  focv 4 V m-1;  focv 1 nT;  fov 2 uG;  fov 1 G;  focv 3 T m-1;  focv 3 A m-2;  focv 3 mol m-3;
focv 3 C kg-1;  fcv 3 Ohm m;  o 3 ohm m;  focv 3 kW h;  focv 5 rad m-2;  focv 4 deg d-1;  focv 4 mag yr-1;  focv 1 eV;  focv 4 GeV cm-3;
focv 3 byte s-1;  fcv 3 Mbit s-1;  focv 3 lm W-1;  focv 3 cd m-2;  focv 1 barn;  focv 3 sr-1 m-2 s-1 GeV-1;  focv 4 kg m-1 s-2;
focv 3 kg m2 s-3 A-1;  focv 3 J s m-3 Hz-1 sr-1;  focv 3 m3 kg-1 s-2;  focv 3 W m-2 K-4;  focv 3 pc cm-3;  fov 3 erg cm-3;
fov 3 erg g-1 K-1;  focv 3 Jy sr-1;  focv 3 K arcmin-1;  focv 3 km2 s-2 kpc-1;  fov 5 nV Hz-1/2;  fov 3 m Hz-1/2;  fov 2 keV cm3/2;
fov 6 10-17 erg s-1 cm-2 Angstrom-1;  fov 5 10-14 erg s-1 cm-2;  focv 5 10-3 Jy;  focv 5 10+3 K;  focv 4 10-26 W m-2 Hz-1;
focv 3 10+10 cm-2;  c 5 10-1 nm;  c 6 10-7 W m-2;  fcv 4 10+11 solMass;  fo 3 10-3 count s-1;  focv 2 DN s-1;  focv 2 electron s-1;
focv 1 furlong d-1;  v 3 'electron' s-1;  v 2 'DN' s-1 pixel-1
'''


def exponent(notation, chance, text):
    """The exponent as people write it in the notation; text is '1', '-2' or '1/2'."""
    if text == '1':
        return ''
    if notation == 'c':
        return text
    if '/' in text:
        return ('' if notation == 'f' and chance.random() < 0.5 else '**') + '(' + text + ')'
    if notation == 'f':
        return chance.choice(['', '', '', '**', '^']) + text
    brackets = notation in 'os' and text[0] == '-' and chance.random() < 0.6
    return '**(' + text + ')' if brackets else '**' + text


def split(word):
    at = next((i for i, c in enumerate(word) if c in '-0123456789'), len(word))
    return word[:at], word[at:] or '1'


def factor(notation, chance, k):
    k = k.lstrip('+')
    signed = k if k[0] == '-' else '+' + k
    return {
        'f': chance.choice(['10**(%s) ' % k, '10**%s ' % k, '10%s ' % signed]),
        'o': chance.choice(['10**(%s) ' % k, '10**%s ' % k]),
        'c': '10%s' % signed,
        'v': chance.choice(['10**(%s)' % k, '10**%s' % k]),
    }[notation]


def written(notation, chance, quantity):
    words = quantity.split()
    start = factor(notation, chance, words.pop(0)[2:]) if words[0].startswith('10') else ''
    parts = [split(word) for word in words]
    join = {'f': chance.choice('   .*'), 'o': chance.choice('   *'), 'c': '.', 'v': '.', 's': '*'}[notation]
    above = [u + exponent(notation, chance, e) for u, e in parts if e[0] != '-']
    plain = [u + exponent(notation, chance, e) for u, e in parts]
    below = [u + exponent(notation, chance, e[1:]) for u, e in parts if e[0] == '-']
    manner = chance.random()
    if not above or not below or manner < 0.35:
        return start + join.join(plain)
    if len(below) == 1 or (notation in 'oc' and manner < 0.85):
        slash = chance.choice(['/', '/', '/', ' / ']) if notation == 'o' else '/'
        return start + join.join(above) + ''.join(slash + unit for unit in below)
    return start + join.join(above) + '/(' + join.join(below) + ')'


def quantities(notation):
    """How often each quantity is drawn, and the quantity. Starlink has those of OGIP without a factor, and Ang for angstrom."""
    rows = [row.split(None, 2) for row in QUANTITIES.replace('\n', ' ').split(';')]
    if notation == 's':
        return [(int(weight), quantity.replace('angstrom', 'Ang')) for where, weight, quantity in rows if 'o' in where and quantity[:2] != '10']
    return [(int(weight), quantity) for where, weight, quantity in rows if notation in where]


def main():
    for notation, name in ('f', 'fits'), ('o', 'ogip'), ('c', 'cds'), ('v', 'vou'), ('s', 'starlink'):
        chance = random.Random(name)
        mine = quantities(notation)
        drawn = chance.choices([q for _, q in mine], [w for w, _ in mine], k=COUNT)
        with open('bench/labels-%s.txt' % name, 'w') as f:
            f.writelines(written(notation, chance, quantity) + '\n' for quantity in drawn)


if __name__ == '__main__':
    main()
