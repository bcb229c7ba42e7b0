# awk -f day_sheet.awk ROWS.txt: the benchmark's day sheet by awk, from rows with one to a line.
function money(v,  s, a, f) {
    s = ""
    if (v < 0) { s = "-"; v = -v }
    a = int(v / 100)
    f = v - a * 100
    return sprintf("%16s", s sprintf("%.0f.%02d", a, f))
}
function heading() {
    printf "%06d001%-59sPAGE %6d  \n%06d002%-72s\n", page, "DAY SHEET", page, page, \
        "AGENT      CUSTOMER   MODEM                     AMOUNT       COMMISSION"
}
function put(t) {
    if (!seen) { line = 4; seen = 1 }
    else if (line + 1 <= 57) line++
    else { page++; heading(); line = 4 }
    printf "%06d%03d%-72s\n", page, line, t
}
function foot(l,  x) {
    x = sprintf("%11s%-27s%s %s", "", tag[l], money(sa[l]), money(sc[l]))
    if (l > 0) { sa[l - 1] += sa[l]; sc[l - 1] += sc[l] }
    put(x)
    if (l > 0) { sa[l] = 0; sc[l] = 0 }
}
BEGIN {
    page = 1
    tag[0] = "DAY TOTAL"; tag[1] = "AGENT TOTAL"; tag[2] = "CUSTOMER TOTAL"; tag[3] = "MODEM TOTAL"
    for (i = 0; i < 4; i++) { sa[i] = 0; sc[i] = 0 }
}
{
    a = substr($0, 1, 10); c = substr($0, 11, 10); m = substr($0, 21, 15)
    if (NR == 1) heading()
    else {
        b = 0
        if (a != ka) b = 1; else if (c != kc) b = 2; else if ((m "") != (km "")) b = 3
        if (b) for (l = 3; l >= b; l--) foot(l)
    }
    ka = a; kc = c; km = m
    am = substr($0, 36, 14) + 0; co = substr($0, 50, 14) + 0
    sa[3] += am; sc[3] += co
    put(a " " c " " m " " money(am) " " money(co))
}
END { if (NR) for (l = 3; l >= 0; l--) foot(l) }
