/*
 * make_file SEED BYTES [worst]: writes an accepted file of about so many bytes
 * to standard output. The same seed and size always give the same file. The
 * worst file has the fields that a checker is slowest at: see worst_file().
 *
 * A line is written from a pattern: its code, then a word for each field.
 * The word is "-" for an empty field, "=x" for the text x, or a letter for a
 * made-up content (see content()), with a digit d to fill it only d times in
 * ten.
 */
#include <stdbool.h>
#include <stdint.h>
#include <stdio.h>
#include <stdlib.h>
#include <string.h>

static uint64_t seed;
static uint64_t bytes_written, lines_written, lines_before_block;
static unsigned participants, items, documents, item_number;

#define PERIODS 4
static unsigned period; /* of the month, from 0 on: see in_periods() */
static uint64_t room;   /* for bytes of this period and those to come: see fill_period() */

#define CODE_SIZE 4
#define MOST_CODES 200

/* How many lines of each code are written, in the order the codes came first. */
static struct { char code[CODE_SIZE]; uint64_t lines; } tallies[MOST_CODES];
static unsigned codes;

/* ---------------------------------------------------------------- chance */

static uint64_t number(void)
{
    seed += UINT64_C(0x9E3779B97F4A7C15);
    uint64_t z = seed;
    z = (z ^ z >> 30) * UINT64_C(0xBF58476D1CE4E5B9);
    z = (z ^ z >> 27) * UINT64_C(0x94D049BB133111EB);
    return z ^ z >> 31;
}

static unsigned below(unsigned limit)
{
    return (unsigned)(number() % limit);
}

static unsigned between(unsigned low, unsigned high)
{
    return low + below(high - low + 1);
}

static int tenths(unsigned chance)
{
    return below(10) < chance;
}

#define ANY_OF(words) words[below(sizeof words / sizeof words[0])]

/* -------------------------------------------------------- field contents */

static void put_part(const char *text, size_t length)
{
    fwrite(text, 1, length, stdout);
    bytes_written += length;
}

static void put(const char *text)
{
    put_part(text, strlen(text));
}

static void put_number(uint64_t value, int width)
{
    char text[24];
    snprintf(text, sizeof text, "%0*llu", width, (unsigned long long)value);
    put(text);
}

static void put_digits(int count)
{
    for (; count > 9; count -= 9)
        put_number(below(1000000000), 9);
    unsigned limit = 1;
    for (int i = 0; i < count; i++)
        limit *= 10;
    put_number(below(limit), count);
}

/* Small amounts are more frequent than great ones. */
static void put_amount(int decimals)
{
    static const unsigned limits[] = {100, 1000, 10000, 100000, 1000000};
    put_number(below(ANY_OF(limits)), 1);
    put(",");
    put_digits(decimals);
}

/* Of more digits before the comma than two words of eight bytes have, but as short as can be. */
static void put_long_amount(void)
{
    put_digits(17);
    put(",");
    put_digits(2);
}

/*
 * So many digits, then two check digits: each is made from the digits before
 * it, with weights that go up from 2 at the last one to `greatest` and begin
 * again (11 for a CPF and 9 for a CNPJ).
 */
static void put_checked(int count, int greatest)
{
    int digits[14];
    for (int i = 0; i < count; i++)
        digits[i] = (int)below(10);
    for (int end = count + 2; count < end; count++) {
        int sum = 0, weight = 2;
        for (int i = count - 1; i >= 0; i--) {
            sum += digits[i] * weight;
            weight = weight == greatest ? 2 : weight + 1;
        }
        digits[count] = sum % 11 < 2 ? 0 : 11 - sum % 11;
    }
    for (int i = 0; i < count; i++)
        put_number((uint64_t)digits[i], 1);
}

/* Of Base64, as certificates, signatures and hashes are. */
static void put_letters(unsigned count)
{
    static const char letters[] = "ABCDEFGHIJKLMNOPQRSTUVWXYZabcdefghijklmnopqrstuvwxyz0123456789+/";
    for (; count > 0; count--)
        put_part(&letters[below(64)], 1);
}

static void put_date(void)
{
    put_number(between(1, 31), 2);
    put("012012");
}

/* The periods are weeks, the last of which goes on to the month's end. */
static void put_first_day(void)
{
    put_number(7 * period + 1, 2);
    put("012012");
}

static void put_last_day(void)
{
    put_number(period < PERIODS - 1 ? 7 * period + 7 : 31, 2);
    put("012012");
}

/* Names are in ISO 8859-1, as the files are. */
static void put_person(void)
{
    static const char *const first[] = {"Maria", "Jos\351", "Ana", "Jo\343o", "Ant\364nio",
        "Francisca", "Carlos", "Paulo", "Adriana", "L\372cia"};
    static const char *const last[] = {"da Silva", "dos Santos", "Oliveira", "Souza",
        "Cavalcanti", "Albuquerque", "de Melo", "Ara\372jo", "Gon\347alves", "Barros"};
    put(ANY_OF(first));
    put(" ");
    put(ANY_OF(last));
}

static void put_firm(void)
{
    static const char *const trade[] = {"Com\351rcio", "Ind\372stria", "Distribuidora",
        "Supermercado", "Auto Posto", "Farm\341cia", "Padaria", "Atacad\343o"};
    static const char *const name[] = {"Boa Viagem", "Pernambucana", "Capibaribe", "S\343o Jorge",
        "do Agreste", "Nova Era", "Casa Forte", "Guararapes", "Tr\352s Irm\343os"};
    static const char *const form[] = {" Ltda", " Ltda ME", " S/A", " EPP", ""};
    put(ANY_OF(trade));
    put(" ");
    put(ANY_OF(name));
    put(ANY_OF(form));
}

static void put_product(void)
{
    static const char *const what[] = {"Arroz tipo 1", "Feij\343o carioca", "A\347\372car cristal",
        "Caf\351 torrado e mo\355do", "\323leo de soja", "Leite integral", "Sab\343o em p\363",
        "Refrigerante cola", "Papel A4 75g/m2", "Parafuso sextavado 1/4\"", "Gasolina comum"};
    static const char *const pack[] = {" 500g", " 1kg", " 5 kg", " 900ml", " cx c/ 12", " un", ""};
    put(ANY_OF(what));
    put(ANY_OF(pack));
}

static void put_remark(void)
{
    static const char *const parts[] = {"ICMS recolhido por antecipa\347\343o, ",
        "conforme Dec. 14.876/91, art. 28; ", "mercadoria sujeita \340 substitui\347\343o tribut\341ria. ",
        "Pedido de 12/01/2012, ", "entrega na filial; ", "devolu\347\343o parcial da nota citada. ",
        "Sem direito a cr\351dito fiscal. "};
    for (unsigned left = between(1, 5); left > 0; left--)
        put(ANY_OF(parts));
}

static void put_street(void)
{
    static const char *const kind[] = {"Rua ", "Av. ", "Travessa ", "Rod. BR-101 "};
    static const char *const name[] = {"da Aurora", "Conde da Boa Vista", "do Hosp\355cio",
        "Agamenon Magalh\343es", "Caxang\341", "do Sol", "Jo\343o de Barros"};
    put(ANY_OF(kind));
    put(ANY_OF(name));
}

static void put_phone(void)
{
    put("81");
    put_digits(8);
}

static void put_mail(void)
{
    put("fiscal");
    put_digits(3);
    put("@empresa.com.br");
}

static void put_code(const char *start, unsigned value, int width)
{
    put(start);
    put_number(value, width);
}

/* Numbers and codes; false where the letter is none of these. */
static bool number_content(char letter)
{
    switch (letter) {
    case 'B': put_number(below(2), 1); return true;
    case 'C': put_digits(8); return true;
    case 'D': put_date(); return true;
    case 'G': put_digits(2); return true;
    case 'H': put_digits(3); return true;
    case 'I': put_code("", 789000000 + below(items), 13); return true;
    case 'J': put_checked(12, 9); return true;
    case 'K': put_digits(44); return true;
    case 'L': put_amount(3); return true;
    case 'N': put_number(documents, 1); return true;
    case 'O': put_number(item_number, 1); return true;
    case 'P': put_code("P", 1 + below(participants), 6); return true;
    case 'Q': put_amount(6); return true;
    case 'R': put_number(between(1, 3000), 1); return true;
    case 'V': put_amount(2); return true;
    case 'W': put_digits(7); return true;
    case 'X': put_digits(11); return true;
    case 'Y': put_digits(4); return true;
    case 'Z': put("0,00"); return true;
    case 'd': put_code("", 789000000 + items, 13); return true;
    case 'e': put_amount(4); return true;
    case 'i': put_digits(10); return true;
    case 'j': put_digits(5); return true;
    case 'p': put_code("P", participants, 6); return true;
    case 'q': put_digits(9); return true;
    case 'u': put_first_day(); return true;
    case 'v': put_last_day(); return true;
    case 'w': put_long_amount(); return true;
    case 'x': put_checked(9, 11); return true;
    case 'y': put_digits(17); return true;
    case 'z': put("0,000"); return true;
    default: return false;
    }
}

/* One of a few words that real files have there. */
static bool word_content(char letter)
{
    static const char *const models[] = {"55", "55", "55", "01", "04"};
    static const char *const states[] = {"PE", "PE", "PE", "PB", "AL", "BA", "CE", "SP", "RJ"};
    static const char *const units[] = {"UN", "KG", "CX", "L", "PCT", "DZ"};
    static const char *const rates[] = {"17,00", "17,00", "12,00", "7,00", "25,00", "0,00"};
    static const char *const cfops[] = {"5102", "5405", "6102", "1102", "2102", "1403", "5929"};
    static const char *const quarters[] = {"Boa Vista", "Casa Amarela", "Pina", "Imbiribeira",
        "V\341rzea", "Santo Ant\364nio"};
    static const char *const extras[] = {"sala 301", "loja 2", "galp\343o B", "t\351rreo"};
    static const char *const natures[] = {"VENDA", "COMPRA", "DEVOL", "TRANSF"};
    static const char *const classes[] = {"SP10", "SP20", "EP10", "OP30"};
    static const char *const notes[] = {"OBS01", "OBS02", "OBS17"};
    static const char *const printers[] = {"BE0305SC5600248765", "EP051010000000034418", "DR0207BR000000128690"};
    switch (letter) {
    case 'A': put(ANY_OF(rates)); return true;
    case 'F': put(ANY_OF(cfops)); return true;
    case 'M': put(ANY_OF(models)); return true;
    case 'S': put(ANY_OF(states)); return true;
    case 'U': put(ANY_OF(units)); return true;
    case 'b': put(ANY_OF(quarters)); return true;
    case 'c': put(ANY_OF(extras)); return true;
    case 'g': put(ANY_OF(natures)); return true;
    case 'h': put(ANY_OF(classes)); return true;
    case 'm': put(ANY_OF(printers)); return true;
    case 'o': put(ANY_OF(notes)); return true;
    default: return false;
    }
}

static void content(char letter)
{
    if (number_content(letter) || word_content(letter))
        return;
    switch (letter) {
    case 'E': put_mail(); break;
    case 'T': put_phone(); break;
    case 'a': put_street(); break;
    case 'f': put_firm(); break;
    case 'k': put_letters(between(1500, 2500)); break;
    case 'l': put_remark(); break;
    case 'n': put_person(); break;
    case 'r': put_product(); break;
    case 's': put_letters(344); break;
    case 't': put_letters(88); break;
    default: fprintf(stderr, "make_file: no content %c\n", letter); exit(2);
    }
}

/* ------------------------------------------------------------------ lines */

static void field(const char *word, size_t length)
{
    if (word[0] == '=')
        put_part(word + 1, length - 1);
    else if (word[0] != '-' && (length == 1 || tenths((unsigned)(word[1] - '0'))))
        content(word[0]);
    put("|");
}

/* One more line of the code that the pattern begins with. */
static void tally(const char *pattern)
{
    unsigned i = 0;
    while (i < codes && memcmp(tallies[i].code, pattern, CODE_SIZE) != 0)
        i++;
    if (i == MOST_CODES) {
        fputs("make_file: too many codes\n", stderr);
        exit(2);
    }
    if (i == codes)
        memcpy(tallies[codes++].code, pattern, CODE_SIZE);
    tallies[i].lines++;
}

static void line(const char *pattern)
{
    put("|");
    put_part(pattern, CODE_SIZE);
    put("|");
    for (const char *word = pattern + CODE_SIZE; *word == ' ';) {
        size_t length = strcspn(++word, " ");
        field(word, length);
        word += length;
    }
    put("\r\n");
    lines_written++;
    tally(pattern);
}

static void some(unsigned least, unsigned most, const char *pattern)
{
    for (unsigned left = between(least, most); left > 0; left--)
        line(pattern);
}

static void some_times(unsigned least, unsigned most, void (*group)(void))
{
    for (unsigned left = between(least, most); left > 0; left--)
        group();
}

/*
 * The period's share of what the month has, so that the periods have together
 * about as much. Chance rounds it up or down; but up in the first, or what the
 * month has only few of could be missing from the file.
 */
static unsigned share(unsigned least, unsigned most)
{
    unsigned more = period == 0 ? PERIODS - 1 : below(PERIODS);
    return (between(least, most) + more) / PERIODS;
}

static void shared(unsigned least, unsigned most, const char *pattern)
{
    for (unsigned left = share(least, most); left > 0; left--)
        line(pattern);
}

static void shared_times(unsigned least, unsigned most, void (*group)(void))
{
    for (unsigned left = share(least, most); left > 0; left--)
        group();
}

static void perhaps(unsigned chance, const char *pattern)
{
    if (tenths(chance))
        line(pattern);
}

static void opening(const char *pattern)
{
    lines_before_block = pattern[0] == '0' ? 0 : lines_written;
    line(pattern);
}

/* More is the number of lines to come that the count includes. */
static void closing(const char *code, uint64_t more)
{
    char pattern[40];
    uint64_t count = lines_written + 1 + more - lines_before_block;
    snprintf(pattern, sizeof pattern, "%s =%llu", code, (unsigned long long)count);
    line(pattern);
}

/* ----------------------------------------------------------------- blocks */

static void taxpayer(void)
{
    line("0000 =LFPD =01012012 =31012012 f J =PE q W X - q =2000 =0 =20 =Brasil f X - -");
    opening("0001 =0");
    line("0005 n =205 x C a R c4 b C5 R3 T T3 E");
    some(1, 4, "0025 =PE001 =RE002");
    line("0030 =0 =1 =0 =2 =0 =0 =1 =1 =0 =1 =0 =0 =1 =1 =0 =0 =1");
    line("0100 n =900 J5 x =PE012345O C a R c2 b S W C2 R2 T T E");
}

static void participant(void)
{
    participants++;
    if (tenths(8))
        line("0150 p f =01058 J - - S q q1 W X3 q1");
    else
        line("0150 p n =01058 - x - S - - W - -");
    perhaps(9, "0175 C a R c3 b C1 R1 T6 T2");
}

static void item(void)
{
    items++;
    line("0200 d r G Y1");
    perhaps(1, "0205 d r D D");
    perhaps(1, "0210 I U Q U D D2 B Q2");
    perhaps(1, "0215 q D D2");
}

static void note(void)
{
    line("0450 o l");
    perhaps(3, "0455 l");
    perhaps(2, "0460 =0 - S W =012012 q V D Z Z Z Z V D X");
    perhaps(2, "0465 B B J - S q W - M =00 =1 - K8 R D V Z Z V Z Z Z V1");
    perhaps(1, "0470 =2D R m R R R D V Z V");
}

/* As many groups of lines as reach so many bytes, but one at least. */
static void fill(uint64_t end, void (*group)(void))
{
    do
        group();
    while (bytes_written < end);
}

/* The byte where so many hundredths of the way to the end are gone. */
static uint64_t part(unsigned hundredths, uint64_t end)
{
    return bytes_written < end ? bytes_written + (end - bytes_written) * hundredths / 100 : end;
}

/*
 * Twelve rows have one line for each period (or day: H020), so no two of their
 * lines may have the same dates, nor may a row have more than 64 of them,
 * however long the file is. So each of these rows has a line for each of the
 * month's periods and no more, and it is what depends on them that grows with
 * the file.
 */
static void in_periods(void (*group)(void))
{
    for (period = 0; period < PERIODS; period++)
        group();
}

static void fill_in_periods(uint64_t end, void (*group)(void))
{
    room = bytes_written < end ? end - bytes_written : 0;
    in_periods(group);
}

/* As fill, for the period's share of the room: what one has too much the next has less. */
static void fill_period(void (*group)(void))
{
    uint64_t before = bytes_written;
    fill(before + room / (PERIODS - period), group);
    uint64_t filled = bytes_written - before;
    room -= filled < room ? filled : room;
}

static void block_0(uint64_t end)
{
    taxpayer();
    fill(part(55, end), participant);
    fill(part(95, end), item);
    some(3, 6, "0400 g r h");
    fill(end, note);
    closing("0990", 0);
}

static void invoice(void)
{
    documents++;
    line("C020 B B P M =00 =1 N K8 D D g B V Z Z V Z Z Z Z3 V V V3 V3 Z V1 o2");
    perhaps(1, "C040 W V V V V");
    unsigned left = between(1, 12);
    for (item_number = 1; left > 0; left--, item_number++) {
        line("C300 O I U Q Q Z Z V C Y F V A V V2 A2 V2 V1 A1 V1");
        perhaps(1, "C305 r");
        perhaps(1, "C310 G V A");
    }
}

static void consumer_note(void)
{
    documents++;
    line("C550 x3 J1 =02 =00 =D - N D h V Z Z V V V o1");
    unsigned left = between(1, 4);
    for (item_number = 1; left > 0; left--, item_number++)
        line("C560 O I U Q Q Z Z V Y F V A V");
}

static void coupon(void)
{
    documents++;
    line("C600 x3 J1 =2D =00 =1 m R R N D h V Z Z Z Z V V Z Z V3");
    perhaps(1, "C605 Z Z Z V V Z Z");
    unsigned left = between(1, 8);
    for (item_number = 1; left > 0; left--, item_number++) {
        line("C610 O I U Q Q Z Z V Y F V A V Z Z Z");
        perhaps(1, "C615 V A V Z Z");
    }
}

static void block_c(uint64_t end)
{
    opening("C001 =0");
    fill(part(70, end), invoice);
    fill(part(5, end), consumer_note);
    fill(end, coupon);
    closing("C990", 0);
}

static void further_fields(void)
{
    line("E003 =PE =E025 =16 =2");
    line("E003 =PE =E055 =09 =1");
    line("E003 =PE =E065 =10 =1");
    line("E003 =PE =E085 =06 =1");
    line("E003 =PE =E105 =11 =1");
    line("E003 =PE =E310 =10 =1");
    line("E003 =PE =E350 =10 =1");
}

static void entry(void)
{
    documents++;
    line("E020 B B P M =00 =1 N K8 D D g h X B V Z V V V2 V1 V1 Z Z Z V1 V1 Z Z o2");
    some(1, 4, "E025 V Z F V A V V2 V2 Z Z V1 V1 Z Z B5 B1");
}

static void day_of_notes(void)
{
    line("E050 =02 =0 =D - R R D h X V V V Z Z o1");
    some(1, 3, "E055 V F V A V Z Z B1");
}

static void day_of_coupons(void)
{
    line("E060 =2D R m R R D R R V V V Z Z Z Z V V V Z Z V o1");
    some(1, 4, "E065 F V A V B1");
}

static void day_of_printers(void)
{
    line("E080 =0 =2D R D V Z Z Z Z h X V V V Z V B");
    some(1, 3, "E085 V Z F V A V Z V B1");
}

static void bill(void)
{
    documents++;
    line("E100 =0 =1 P W =06 =00 - =U - G N - D D h X V Z V V Z Z Z o1");
    some(1, 2, "E105 V Z F V A V Z Z Z B1");
}

static void transport(void)
{
    documents++;
    line("E120 B B P W =08 =00 =1 - N K5 D D h X B V F V A V Z Z Z o1");
    perhaps(1, "E140 W =13 =0 =1 - R R D h X V F V A V Z Z o1");
}

static void icms_assessment(void)
{
    line("E300 u v");
    shared(20, 31, "E305 B B D h X R V Z V V V2 Z Z Z Z Z Z Z V1 V1 Z Z");
    shared(8, 20, "E310 V Z F V V V2 Z Z B");
    shared(3, 8, "E330 B V Z V V V Z Z Z Z Z Z Z");
    line("E340 V V V Z Z V Z V V Z Z Z V Z Z Z Z Z V Z Z Z V");
    shared(1, 5, "E350 =PE H V X3 X3 B l o2 =1");
    shared(1, 4, "E360 =PE H =012012 =0051 V D X2 B l2 o1");
}

static void ipi_assessment(void)
{
    line("E500 u v -");
    shared(2, 8, "E520 V F V V Z Z");
    shared(3, 8, "E525 B V V V Z Z");
    line("E540 V Z V Z Z Z V V Z Z Z V Z V Z");
    shared(1, 3, "E550 H V =9 X3 l o2");
    shared(1, 2, "E560 =1097 =012012 Y V D B X2 l2 o1");
}

static void block_e(uint64_t end)
{
    opening("E001 =0");
    further_fields();
    fill(part(75, end), entry);
    fill(part(10, end), day_of_notes);
    fill(part(40, end), day_of_coupons);
    fill(part(30, end), day_of_printers);
    fill(part(30, end), bill);
    fill(end, transport);
    in_periods(icms_assessment);
    in_periods(ipi_assessment);
    closing("E990", 0);
}

static void printed_documents(void)
{
    line("F020 =0 u v - =PE");
    line("F025 =PE W R D P");
    for (unsigned left = share(1, 3); left > 0; left--) {
        line("F030 =01 M =1 - R");
        some(1, 3, "F035 M =1 - D R R R - o1");
    }
}

static void fuel_day(void)
{
    line("F215 =1 D L L L L L z z L V");
    for (unsigned left = between(1, 3); left > 0; left--) {
        line("F220 =TQ01 L L L L z z");
        perhaps(4, "F225 =0 =1 J S q =55 =1 N D V V V L o1");
        some(1, 4, "F230 R G X X Z");
    }
}

static void fuel(void)
{
    line("F210 I o1");
    shared_times(5, 31, fuel_day);
}

static void fuel_book(void)
{
    line("F200 =1 u v");
    shared(2, 6, "F205 R f J r B");
    fill_period(fuel);
}

static void vehicles(void)
{
    line("F250 =1 u v");
    shared(2, 10, "F255 D B P S W =KJA1234 f r =2009 r X X V B D5 P5 V5 o1");
}

static void block_f(uint64_t end)
{
    opening("F001 =0");
    in_periods(printed_documents);
    fill_in_periods(end, fuel_book);
    in_periods(vehicles);
    closing("F990", 0);
}

static void documents_of_a_kind(void)
{
    line("G025 B B M =1 - R R R R V Z Z V V2 Z V1");
}

static void guide(void)
{
    line("G020 =0 u v");
    fill_period(documents_of_a_kind);
    shared(1, 5, "G030 =2D R R R R R V Z V V2");
    shared(20, 31, "G050 B B D h R V V Z Z Z V V2 Z Z Z Z Z V1");
    shared(8, 20, "G400 V Z F V V V2 V2 Z Z");
    shared(3, 8, "G410 B V Z V V V Z Z Z Z Z Z Z");
    line("G420 V V V Z Z V Z V V Z Z Z V Z Z Z Z Z V Z Z Z V");
    shared(1, 5, "G430 H V");
    shared(1, 4, "G440 =PE H =012012 =0051 V D");
    line("G450 =0 V V Z V V V V2 Z Z Z Z Z Z");
    shared(3, 9, "G460 S V V Z V V V V2 Z Z Z Z Z Z");
}

static void block_g(uint64_t end)
{
    opening("G001 =0");
    fill_in_periods(end, guide);
    closing("G990", 0);
}

static void stocked_item(void)
{
    line("H030 =0 P1 B C I U Q Q V V Z V V Z o1");
}

static void inventory(void)
{
    line("H020 =3 v V V Z V V Z V X o2");
    fill_period(stocked_item);
    shared(1, 3, "H040 B V");
    shared(1, 2, "H050 B V");
    shared(3, 20, "H060 C V");
}

static void block_h(uint64_t end)
{
    opening("H001 =0");
    fill_in_periods(end, inventory);
    closing("H990", 0);
}

static void municipality(void)
{
    line("8030 =0 B B W V Z Z V V e");
}

static void added_value(void)
{
    line("8020 =0 u v");
    fill_period(municipality);
    line("8030 =1 B B W V Z Z V V e");
    shared(5, 15, "8040 =1 V Z F Z V V");
    line("8050 V V e");
}

static void goods_bought(void)
{
    line("8100 =0 u v");
    shared(1, 4, "8110 B V V V V");
}

static void credit_gathered(void)
{
    line("8160 =0 u v");
    line("8165 V V V V V");
    shared(1, 4, "8170 V V X3 B l2 l1");
    for (unsigned left = share(1, 4); left > 0; left--) {
        line("8175 B V q3 l2");
        some(0, 2, "8180 B V H q3 l1");
    }
}

static void supplies(void)
{
    line("8300 =0 u v");
    shared(4, 12, "8310 =1 G V Z Z V V V2 Z");
}

static void benefit(void)
{
    line("8505 =1 j D B B");
    perhaps(4, "8510 j D B");
    for (unsigned left = between(1, 3); left > 0; left--) {
        line("8515 =2");
        some(1, 5, "8525 I r i U A =0012");
    }
}

static void favoured_document(void)
{
    documents++;
    line("8530 B B P M =1 N D V V V");
    unsigned left = between(1, 12);
    for (item_number = 1; left > 0; left--, item_number++)
        line("8535 O I F V A V B B3");
    some(1, 4, "8540 V F V A V B B3");
}

static void favoured_assessment(void)
{
    line("8545 =PE001 =2 B3");
    some(3, 10, "8550 V F V");
    some(3, 8, "8555 G V V");
    line("8560 V V Z V V V Z Z V Z V");
    some(0, 3, "8565 H V");
    line("8570 A V V V V V V V V V V");
    line("8580 V V Z A V V V V V");
    some(1, 4, "8585 B V V V");
    line("8590 A Z V A Z V V V V V V A V V");
}

static void incentives(void)
{
    line("8500 =0 u v");
    shared_times(1, 3, benefit);
    fill_period(favoured_document);
    shared_times(1, 3, favoured_assessment);
}

static void block_8(uint64_t end)
{
    opening("8001 =0 =PE");
    fill_in_periods(part(30, end), added_value);
    in_periods(goods_bought);
    in_periods(credit_gathered);
    in_periods(supplies);
    fill_in_periods(end, incentives);
    closing("8990", 0);
}

static void associated_file(void)
{
    line("9020 =LFPD =01012012 =31012012 f J S q W X3 - q1 =2000 =0 =20 =Brasil - f R =lfpd012012.txt t");
    some(5, 20, "9030 =C300 R");
    line("9040 =ACRFB X =31122013 C =1.2.840.113549.1.1.5 =10022012 C n =205 k s");
}

static void statement(const char *code, uint64_t number)
{
    char pattern[40];
    snprintf(pattern, sizeof pattern, "9900 =%.*s =%llu", CODE_SIZE, code, (unsigned long long)number);
    line(pattern);
}

/* Of every code: those of the lines before, and those of the lines from here on. */
static void statements(void)
{
    unsigned before = codes;
    for (unsigned i = 0; i < before; i++)
        statement(tallies[i].code, tallies[i].lines);
    statement("9900", before + 3);
    statement("9990", 1);
    statement("9999", 1);
}

static void block_9(void)
{
    opening("9001 =0");
    some_times(1, 3, associated_file);
    statements();
    closing("9990", 1);
    lines_before_block = 0;
    closing("9999", 0);
}

static void usual_file(uint64_t bytes)
{
    uint64_t before_8 = bytes * 96 / 100; /* for blocks 0 to H: the rest is for block 8, and block 9 comes on top */
    block_0(before_8 * 18 / 100);
    block_c(before_8 * 62 / 100);
    block_e(before_8 * 88 / 100);
    block_f(before_8 * 93 / 100);
    block_g(before_8 * 95 / 100);
    block_h(before_8);
    block_8(bytes);
    block_9();
}

/* --------------------------------------------------------- the worst file */

/*
 * A checker that passes right fields whole has to leave some to its steps,
 * byte by byte: amounts that have more than 16 digits before the comma, numbers
 * without a size that have more than 16, the dates of rows with periods and
 * what 9900 lines state. The worst file has little else. Its long
 * numbers are the shortest of their sort, so that there are many of them; it
 * has as many periods as a row may have, and states each code again and again.
 */
#define MOST_PERIODS 64

static void period_line(const char *start, unsigned number)
{
    char pattern[40];
    snprintf(pattern, sizeof pattern, "%s =%02u%02u2012 =31122012", start, number % 28 + 1, number / 28 + 1);
    line(pattern);
}

static void long_amounts(void)
{
    line("E330 B w w w w w w w w w w w w");
}

static void long_numbers(void)
{
    line("G030 =2D y y y y y w w w w");
}

/* A line for each period, and under it its part of the lines up to the end. */
static void fill_periods(const char *start, uint64_t end, void (*group)(void))
{
    for (unsigned number = 0; number < MOST_PERIODS; number++) {
        period_line(start, number);
        fill(part(100 / (MOST_PERIODS - number), end), group);
    }
}

/* All rounds state the same, so all is true. */
static void statements_again(uint64_t end)
{
    unsigned before = codes;
    uint64_t each = (before + 3) * UINT64_C(17), rounds = bytes_written + each < end ? (end - bytes_written) / each : 1;
    for (uint64_t left = rounds; left > 0; left--) {
        for (unsigned i = 0; i < before; i++)
            statement(tallies[i].code, tallies[i].lines);
        statement("9900", rounds * (before + 3));
        statement("9990", 1);
        statement("9999", 1);
    }
}

static void worst_file(uint64_t bytes)
{
    taxpayer();
    closing("0990", 0);
    opening("E001 =0");
    fill_periods("E300", bytes * 55 / 100, long_amounts);
    closing("E990", 0);
    opening("G001 =0");
    fill_periods("G020 =0", bytes * 85 / 100, long_numbers);
    closing("G990", 0);
    opening("9001 =0");
    statements_again(bytes);
    closing("9990", 1);
    lines_before_block = 0;
    closing("9999", 0);
}

int main(int argc, char **argv)
{
    if (argc < 3 || argc > 4 || (argc == 4 && strcmp(argv[3], "worst") != 0)) {
        fputs("usage: make_file SEED BYTES [worst]\n", stderr);
        return 2;
    }
    seed = strtoull(argv[1], NULL, 10);
    uint64_t bytes = strtoull(argv[2], NULL, 10);
    if (argc == 4)
        worst_file(bytes);
    else
        usual_file(bytes);
    return fflush(stdout) == 0 && !ferror(stdout) ? 0 : 2;
}
