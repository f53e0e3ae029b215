"""Dossiers whose carriers grow, and a plot of times against bindings, both axes logarithmic, as SVG."""
import math


def clock(minutes, base=4):
    last, tens, units = minutes - 1, minutes // base - 1, base - 1
    return f'''contents abstract concrete ainit cinit retrieve op tick op lap op between end
abstract now : 0..{last} ; mark : 0..{last} ; where true end
concrete tens : 0..{tens} ; units : 0..{units} ; mtens : 0..{tens} ; munits : 0..{units} ; where true end
ainit where now = 0 and mark = 0 end
cinit where tens = 0 and units = 0 and mtens = 0 and munits = 0 end
retrieve where tens = now div {base} and units = now mod {base} and mtens = mark div {base} and munits = mark mod {base} end
op tick
  abstract now' = [now + 1] mod {minutes} and mark' = mark
  concrete units' = [units + 1] mod {base} and mtens' = mtens and munits' = munits
    and (units = {units} => tens' = [tens + 1] mod {tens + 1}) and (units /= {units} => tens' = tens) end
op lap
  abstract now' = now and mark' = now
  concrete tens' = tens and units' = units and mtens' = tens and munits' = units end
op between d! : 0..{last} ;
  abstract now' = now and mark' = mark and d! = [now - mark] mod {minutes}
  concrete tens' = tens and units' = units and mtens' = mtens and munits' = munits
    and d! = [{base} * [tens - mtens] + units - munits] mod {minutes} end
'''


def pool(n):
    cells = [f'c{i + 1}' for i in range(n)]
    return f'''contents given CELL abstract concrete ainit cinit retrieve op take op give op left end
given CELL {' '.join(cells)} end
abstract free : P CELL ; used : P CELL ;
  where free inter used = empty CELL and free union used = {{{', '.join(cells)}}} end
concrete bitmap : P CELL ; count : 0..{n} ; where count = # bitmap end
ainit where used = empty CELL end
cinit where count = 0 end
retrieve where used = bitmap end
op take c! : CELL ;
  abstract c! in free and free' = free minus {{c!}} and used' = used union {{c!}}
  concrete c! notin bitmap and bitmap' = bitmap union {{c!}} and count' = count + 1 end
op give c? : CELL ;
  abstract c? in used and used' = used minus {{c?}}
  concrete c? in bitmap and bitmap' = bitmap minus {{c?}} and count' = count - 1 end
op left n! : 0..{n} ;
  abstract free' = free and used' = used and n! = # free
  concrete bitmap' = bitmap and count' = count and n! = {n} - count end
'''


def weak(n, last):
    elements = ' '.join(f's{i + 1}' for i in range(n))
    return f'''contents given SEG abstract concrete ainit cinit retrieve op add op remove op read end
given SEG {elements} end
abstract m : P SEG ; t : 0..{last} ; where true end
concrete n : P SEG ; u : 0..{last} ; where true end
ainit where m = empty SEG and t = 0 end
cinit where n = empty SEG and u = 0 end
retrieve where # m = # n and t = u end
op add x? : 0..7 ; abstract # m' = # m + 1 and t' = [t + x?] mod {last + 1} concrete # n' = # n + 1 and u' = [u + x?] mod {last + 1} end
op remove abstract # m' = # m - 1 and t' = t concrete # n' = # n - 1 and u' = u end
op read r! : 0..{n} ; abstract m' = m and t' = t and r! = # m concrete n' = n and u' = u and r! = # n end
'''


def outputs(n):
    elements = ' '.join(f's{i + 1}' for i in range(n))
    return f'''contents given SEG abstract concrete ainit cinit retrieve op scan op stat end
given SEG {elements} end
abstract m : P SEG ; k : 0..3 ; where true end
concrete n : P SEG ; j : 0..3 ; where true end
ainit where m = empty SEG end
cinit where n = empty SEG end
retrieve where m = n and k = j end
op scan a! : 0..3 ; b! : 0..3 ; c! : 0..3 ; abstract # m' <= 3 concrete # n' <= 3 end
op stat a! : 0..3 ; b! : 0..3 ; abstract a! + b! <= # m + 2 concrete a! + b! <= # n + 2 and # n' < 4 and # n' <= # n + 1 end
'''


def links(n):
    ports = ' '.join(f'p{i + 1}' for i in range(n))
    return f'''contents given NODE given PORT abstract concrete ainit cinit retrieve op join op leave op ports op degree end
given NODE a b c end
given PORT {ports} end
abstract link : NODE <-> PORT ; where true end
concrete xa : P PORT ; xb : P PORT ; xc : P PORT ; where true end
ainit where link = empty NODE PORT end
cinit where xa = empty PORT and xb = empty PORT and xc = empty PORT end
retrieve where (forall p : PORT @ (a |-> p in link <=> p in xa) and (b |-> p in link <=> p in xb) and (c |-> p in link <=> p in xc)) end
op join n? : NODE ; p? : PORT ;
  abstract n? |-> p? notin link and link' = link union {{n? |-> p?}}
  concrete (n? = a => p? notin xa and xa' = xa union {{p?}} and xb' = xb and xc' = xc)
    and (n? = b => p? notin xb and xb' = xb union {{p?}} and xa' = xa and xc' = xc)
    and (n? = c => p? notin xc and xc' = xc union {{p?}} and xa' = xa and xb' = xb) end
op leave p? : PORT ;
  abstract p? in ran link and link' = link minus {{a |-> p?, b |-> p?, c |-> p?}}
  concrete (p? in xa or p? in xb or p? in xc) and xa' = xa minus {{p?}} and xb' = xb minus {{p?}} and xc' = xc minus {{p?}} end
op ports s! : P PORT ;
  abstract link' = link and s! = ran link
  concrete xa' = xa and xb' = xb and xc' = xc and s! = xa union xb union xc end
op degree n? : NODE ; d! : 0..{n} ;
  abstract link' = link and d! = # {{p : PORT | n? |-> p in link}}
  concrete xa' = xa and xb' = xb and xc' = xc and (n? = a => d! = # xa) and (n? = b => d! = # xb) and (n? = c => d! = # xc) end
'''


def families():
    """(family, [(name, text)]), each from small to large; all are accepted"""
    return [('clock', [(f'clock, {m} minutes', clock(m)) for m in (4, 8, 12, 20, 28, 40, 60)]),
            ('pool', [(f'pool, {n} cells', pool(n)) for n in (2, 3, 4, 5, 6)]),
            ('weak', [(f'weak, {n} members, {k + 1} values', weak(n, k)) for n, k in ((2, 3), (3, 3), (4, 3), (5, 3), (5, 7), (6, 7), (7, 7), (8, 15))]),
            ('outputs', [(f'outputs, {n} members', outputs(n)) for n in (2, 3, 4, 5, 6, 7, 8)]),
            ('links', [(f'links, {n} port' + 's' * (n > 1), links(n)) for n in (1, 2, 3, 4)])]


def draw(lines, path):
    """lines: (family, [(bindings, ms)] of ours, the same of the best peer)"""
    width, height, left, top, right, bottom = 860, 520, 70, 40, 170, 60
    points = [p for _, a, b in lines for p in a + b]
    x0, x1 = math.floor(math.log10(min(p[0] for p in points))), math.ceil(math.log10(max(p[0] for p in points)))
    y0, y1 = math.floor(math.log10(min(p[1] for p in points))), math.ceil(math.log10(max(p[1] for p in points)))
    x = lambda v: left + (math.log10(v) - x0) / (x1 - x0) * (width - left - right)
    y = lambda v: height - bottom - (math.log10(v) - y0) / (y1 - y0) * (height - top - bottom)
    colours = ['#1b6ca8', '#c0392b', '#2e8b57', '#8e44ad', '#b8860b']
    out = [f'<svg xmlns="http://www.w3.org/2000/svg" width="{width}" height="{height}" viewBox="0 0 {width} {height}" font-family="sans-serif" font-size="12">',
           f'<rect width="{width}" height="{height}" fill="white"/>',
           f'<text x="{left}" y="22" font-size="14">CPU time of the whole process (ms) against bindings: ours solid, the best peer dashed</text>']
    for e in range(x0, x1 + 1):
        out.append(f'<line x1="{x(10 ** e):.1f}" y1="{top}" x2="{x(10 ** e):.1f}" y2="{height - bottom}" stroke="#ddd"/>')
        out.append(f'<text x="{x(10 ** e):.1f}" y="{height - bottom + 18}" text-anchor="middle">10<tspan dy="-5" font-size="9">{e}</tspan></text>')
    for e in range(y0, y1 + 1):
        out.append(f'<line x1="{left}" y1="{y(10 ** e):.1f}" x2="{width - right}" y2="{y(10 ** e):.1f}" stroke="#ddd"/>')
        out.append(f'<text x="{left - 8}" y="{y(10 ** e) + 4:.1f}" text-anchor="end">{10 ** e:,}</text>' if e >= 0 else f'<text x="{left - 8}" y="{y(10 ** e) + 4:.1f}" text-anchor="end">{10 ** e:g}</text>')
    out.append(f'<text x="{(left + width - right) / 2}" y="{height - 18}" text-anchor="middle">bindings</text>')
    out.append(f'<text x="18" y="{(top + height - bottom) / 2}" text-anchor="middle" transform="rotate(-90 18 {(top + height - bottom) / 2})">ms</text>')
    for k, (family, ours, peer) in enumerate(lines):
        for line, dash in ((ours, ''), (peer, ' stroke-dasharray="6 4"')):
            if not line:
                continue
            out.append(f'<polyline fill="none" stroke="{colours[k]}" stroke-width="2"{dash} points="{" ".join(f"{x(a):.1f},{y(b):.1f}" for a, b in line)}"/>')
            out += [f'<circle cx="{x(a):.1f}" cy="{y(b):.1f}" r="3" fill="{colours[k] if not dash else "white"}" stroke="{colours[k]}"/>' for a, b in line]
        at = top + 20 + 44 * k
        for row, (what, dash) in enumerate((('', ''), (', best peer', ' stroke-dasharray="6 4"'))):
            out.append(f'<line x1="{width - right + 14}" y1="{at + 18 * row}" x2="{width - right + 44}" y2="{at + 18 * row}" stroke="{colours[k]}" stroke-width="2"{dash}/>')
            out.append(f'<text x="{width - right + 50}" y="{at + 18 * row + 4}">{family}{what}</text>')
    path.write_text('\n'.join(out + ['</svg>', '']))
