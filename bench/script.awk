# Prints a script of `lines` lines, always the same one: several tills, all kinds, repeats, and lines outside the grammar.
function draw(n) { seed = (seed * 69069 + 12345) % 2147483648; return int(seed / 65536) % n }
BEGIN {
    seed = 1541
    for (till = 1; till <= 64; till++) { number[till] = 0; last[till] = "" }
    for (line = 1; line <= lines; line++) {
        till = 1 + draw(64)
        chance = draw(100)
        ending = (draw(20) == 0) ? "\r\n" : "\n"
        if (chance < 12 && last[till] != "") text = last[till]
        else if (chance < 14 && before[till] != "") text = before[till]
        else if (chance < 15) text = till "," (number[till] + 2 + draw(5)) ",S," (1 + draw(8819)) ",1"
        else if (chance < 18 && number[till] > 1) text = till "," (number[till] - 1) ",I," (1 + draw(8819)) ",1"
        else if (chance < 20 && number[till] > 0) text = till "," number[till] ",S," (1 + draw(8819)) "," draw(1000000)
        else if (chance < 22) text = "0" till "," (number[till] + 1) ",S,1,1"
        else if (chance < 23) text = ""
        else if (chance < 24) text = "hello " till
        else {
            kind = substr("SSSRRRIII", 1 + draw(9), 1)
            item = 1 + draw(draw(10) == 0 ? 12000 : (draw(2) == 0 ? 300 : 8819))
            quantity = (draw(50) == 0) ? 999999999 : draw(draw(30) == 0 ? 32767 : 1000)
            number[till]++
            text = till "," number[till] "," kind "," item "," quantity
            if (draw(10) == 0) text = till "," number[till] ",M," item "," quantity "," (1 + draw(300))
            before[till] = last[till]
            last[till] = text
        }
        printf "%s%s", text, ending
    }
}
