/*
 * What the fields of the rows hold, from field 2 on, as the sheets of Appendix
 * B say it in their columns type, size and decimals; a name that begins DT_,
 * CNPJ or CPF says more. 2.6.1 says how many fields a row has; one that no
 * sheet gives is C without a size.
 */
#ifndef PEER_KINDS_H
#define PEER_KINDS_H

#include <stddef.h>
#include <stdint.h>

enum form {
    AMOUNT, TEXT, DIGITS, DECIMALS, DATE, CHECKED, FIXED, MARK, FIRST_DAY, LAST_DAY, COUNT, NAMED, STATED,
    NO_FIELD,
};

#define CNPJ_SIZE 14
#define CPF_SIZE 11

/*
 * The size is the most bytes of TEXT and NAMED, the bytes of FIXED, MARK,
 * CHECKED and the three forms of a date, and of DIGITS and STATED (0: any
 * number), and for DECIMALS the digits after the comma; AMOUNT is DECIMALS with
 * two. FIRST_DAY and LAST_DAY are DT_INI and DT_FIN where the row has one line
 * for each period; H020, which has one for each day, has only a LAST_DAY. The
 * last two digits of CHECKED are made from those before. STATED is how many
 * lines of the file have the code NAMED before it. NO_FIELD stands behind a
 * row's last field.
 */
struct kind {
    uint8_t form;
    uint32_t size;
    const char *text;
};

#define C(size) {TEXT, size, NULL}
#define C_255 {TEXT, 255, NULL}
#define N(size) {DIGITS, size, NULL}
#define N_ANY {DIGITS, 0, NULL}
#define D(decimals) {(decimals) == 2 ? AMOUNT : DECIMALS, decimals, NULL}
#define DT {DATE, 8, NULL}
#define FIRST {FIRST_DAY, 8, NULL}
#define LAST {LAST_DAY, 8, NULL}
#define CNPJ {CHECKED, CNPJ_SIZE, NULL}
#define CPF {CHECKED, CPF_SIZE, NULL}
#define SAYS(size, text) {FIXED, size, text}
#define STOP {NO_FIELD, 0, NULL}

static const struct kind opening[] = {{MARK, 1, NULL}, STOP};
static const struct kind closing[] = {{COUNT, 0, NULL}, STOP};

static const struct kind kinds_0000[] = {
    SAYS(4, "LFPD"), DT, DT, C_255, CNPJ, C(2), C_255, N(7), C_255, C(0),
    C(9), N(4), N(1), N(2), SAYS(6, "Brasil"), C_255, N(11), CPF, C(0), STOP,
};
static const struct kind kinds_0005[] = {
    C_255, N(3), CPF, N(8), C_255, C_255, C_255, C_255, N(8), N_ANY,
    C_255, C_255, C_255, STOP,
};
static const struct kind kinds_0025[] = {C(5), C(5), STOP};
static const struct kind kinds_0030[] = {
    N(1), N(1), N(1), N(1), N(1), N(1), N(1), N(1), N(1), N(1),
    N(1), N(1), N(1), N(1), N(1), N(1), N(1), STOP,
};
static const struct kind kinds_0100[] = {
    C_255, N(3), CNPJ, CPF, C(10), N(8), C_255, C_255, C_255, C_255,
    C(2), N(7), N(8), N_ANY, C_255, C_255, C_255, STOP,
};
static const struct kind kinds_0150[] = {
    C_255, C_255, N(5), CNPJ, CPF, C(0), C(2), C_255, C_255, N(7),
    C_255, C(9), STOP,
};
static const struct kind kinds_0175[] = {
    N(8), C_255, C_255, C_255, C_255, N(8), N_ANY, C_255, C_255, STOP,
};
static const struct kind kinds_0200[] = {C_255, C_255, N(2), N(4), STOP};
static const struct kind kinds_0205[] = {C_255, C_255, DT, DT, STOP};
static const struct kind kinds_0210[] = {
    C_255, C_255, D(6), C_255, DT, DT, N_ANY, D(6), STOP,
};
static const struct kind kinds_0215[] = {C_255, DT, DT, STOP};
static const struct kind kinds_0400[] = {C_255, C_255, C(4), STOP};
static const struct kind kinds_0450[] = {C_255, C(65536), STOP};
static const struct kind kinds_0455[] = {C_255, STOP};
static const struct kind kinds_0460[] = {
    C_255, C_255, C(2), N(7), N(6), C_255, D(2), DT, D(2), D(2),
    D(2), D(2), D(2), DT, C_255, STOP,
};
static const struct kind kinds_0465[] = {
    N(1), N(1), CNPJ, CPF, C(2), C_255, N(7), C_255, C(2), N(2),
    C_255, N_ANY, C(45), N_ANY, DT, D(2), D(2), D(2), D(2), D(2),
    D(2), D(2), D(2), STOP,
};
static const struct kind kinds_0470[] = {
    C(2), N_ANY, C(20), N_ANY, N_ANY, N_ANY, DT, D(2), D(2), D(2), STOP,
};

static const struct kind kinds_C020[] = {
    N(1), N(1), C_255, C(2), N(2), C_255, N_ANY, C(45), DT, DT,
    C_255, N(1), D(2), D(2), D(2), D(2), D(2), D(2), D(2), D(2),
    D(2), D(2), D(2), D(2), D(2), D(2), C_255, STOP,
};
static const struct kind kinds_C040[] = {N(7), D(2), D(2), D(2), D(2), STOP};
static const struct kind kinds_C300[] = {
    N_ANY, C_255, C_255, D(6), D(6), D(2), D(2), D(2), N(8), N(4),
    N(4), D(2), D(2), D(2), D(2), D(2), D(2), D(2), D(2), D(2), STOP,
};
/* No sheet gives C305. */
static const struct kind kinds_C305[] = {C_255, STOP};
/* The sheet has a fifth field, VL_ISS_I. */
static const struct kind kinds_C310[] = {N(2), D(2), D(2), STOP};
static const struct kind kinds_C550[] = {
    CPF, CNPJ, C(2), N(2), C_255, N_ANY, N_ANY, DT, C(4), D(2),
    D(2), D(2), D(2), D(2), D(2), C_255, STOP,
};
static const struct kind kinds_C560[] = {
    N_ANY, C_255, C_255, D(6), D(6), D(2), D(2), D(2), N(4), N(4),
    D(2), D(2), D(2), STOP,
};
static const struct kind kinds_C600[] = {
    CPF, CNPJ, C(2), N(2), N_ANY, C(20), N_ANY, N_ANY, N_ANY, DT,
    C(4), D(2), D(2), D(2), D(2), D(2), D(2), D(2), D(2), D(2),
    D(2), STOP,
};
static const struct kind kinds_C605[] = {
    D(2), D(2), D(2), D(2), D(2), D(2), D(2), STOP,
};
static const struct kind kinds_C610[] = {
    N_ANY, C_255, C_255, D(6), D(6), D(2), D(2), D(2), N(4), N(4),
    D(2), D(2), D(2), D(2), D(2), D(2), STOP,
};
static const struct kind kinds_C615[] = {D(2), D(2), D(2), D(2), D(2), STOP};

static const struct kind kinds_E003[] = {C(2), C(4), N_ANY, N_ANY, STOP};
static const struct kind kinds_E020[] = {
    N(1), N(1), C_255, C(2), N(2), C_255, N_ANY, C(45), DT, DT,
    C_255, C(4), C_255, N(1), D(2), D(2), D(2), D(2), D(2), D(2),
    D(2), D(2), D(2), D(2), D(2), D(2), D(2), D(2), C_255, STOP,
};
static const struct kind kinds_E025[] = {
    D(2), D(2), N(4), D(2), D(2), D(2), D(2), D(2), D(2), D(2),
    D(2), D(2), D(2), D(2), N(1), N(1), STOP,
};
static const struct kind kinds_E050[] = {
    C(2), N_ANY, C_255, N_ANY, N_ANY, N_ANY, DT, C(4), C_255, D(2),
    D(2), D(2), D(2), D(2), C_255, STOP,
};
static const struct kind kinds_E055[] = {
    D(2), N(4), D(2), D(2), D(2), D(2), D(2), N(1), STOP,
};
static const struct kind kinds_E060[] = {
    C(2), N_ANY, C(20), N_ANY, N_ANY, DT, N_ANY, N_ANY, D(2), D(2),
    D(2), D(2), D(2), D(2), D(2), D(2), D(2), D(2), D(2), D(2),
    D(2), C_255, STOP,
};
static const struct kind kinds_E065[] = {N(4), D(2), D(2), D(2), N(1), STOP};
static const struct kind kinds_E080[] = {
    N(1), C(2), N_ANY, DT, D(2), D(2), D(2), D(2), D(2), C(4),
    C_255, D(2), D(2), D(2), D(2), D(2), N(1), STOP,
};
static const struct kind kinds_E085[] = {
    D(2), D(2), N(4), D(2), D(2), D(2), D(2), D(2), N(1), STOP,
};
static const struct kind kinds_E100[] = {
    N(1), N(1), C_255, N(7), C(2), N(2), N_ANY, C_255, N_ANY, N(2),
    N_ANY, N_ANY, DT, DT, C(4), C_255, D(2), D(2), D(2), D(2),
    D(2), D(2), D(2), C_255, STOP,
};
static const struct kind kinds_E105[] = {
    D(2), D(2), N(4), D(2), D(2), D(2), D(2), D(2), D(2), N(1), STOP,
};
static const struct kind kinds_E120[] = {
    N(1), N(1), C_255, N(7), C(2), N(2), C_255, N_ANY, N_ANY, C(45),
    DT, DT, C(4), C_255, N(1), D(2), N(4), D(2), D(2), D(2),
    D(2), D(2), D(2), C_255, STOP,
};
static const struct kind kinds_E140[] = {
    N(7), C(2), N_ANY, C_255, N_ANY, N_ANY, N_ANY, DT, C(4), C_255,
    D(2), N(4), D(2), D(2), D(2), D(2), D(2), C_255, STOP,
};
static const struct kind kinds_E300[] = {FIRST, LAST, STOP};
static const struct kind kinds_E305[] = {
    N(1), N(1), DT, C(4), C_255, N_ANY, D(2), D(2), D(2), D(2),
    D(2), D(2), D(2), D(2), D(2), D(2), D(2), D(2), D(2), D(2),
    D(2), D(2), STOP,
};
static const struct kind kinds_E310[] = {
    D(2), D(2), N(4), D(2), D(2), D(2), D(2), D(2), N(1), STOP,
};
static const struct kind kinds_E330[] = {
    N(1), D(2), D(2), D(2), D(2), D(2), D(2), D(2), D(2), D(2),
    D(2), D(2), D(2), STOP,
};
static const struct kind kinds_E340[] = {
    D(2), D(2), D(2), D(2), D(2), D(2), D(2), D(2), D(2), D(2),
    D(2), D(2), D(2), D(2), D(2), D(2), D(2), D(2), D(2), D(2),
    D(2), D(2), D(2), STOP,
};
static const struct kind kinds_E350[] = {
    C(2), N(3), D(2), C_255, C_255, N(1), C_255, C_255, N_ANY, STOP,
};
static const struct kind kinds_E360[] = {
    C(2), N(3), N(6), C_255, D(2), DT, C_255, N(1), C_255, C_255, STOP,
};
/* The sheet has no fourth field. */
static const struct kind kinds_E500[] = {FIRST, LAST, C_255, STOP};
static const struct kind kinds_E520[] = {D(2), N(4), D(2), D(2), D(2), D(2), STOP};
static const struct kind kinds_E525[] = {N(1), D(2), D(2), D(2), D(2), D(2), STOP};
static const struct kind kinds_E540[] = {
    D(2), D(2), D(2), D(2), D(2), D(2), D(2), D(2), D(2), D(2),
    D(2), D(2), D(2), D(2), D(2), STOP,
};
static const struct kind kinds_E550[] = {
    N(3), D(2), C(1), C_255, C_255, C_255, STOP,
};
static const struct kind kinds_E560[] = {
    C(4), N(6), N(4), D(2), DT, N(1), C_255, C_255, C_255, STOP,
};

static const struct kind kinds_F020[] = {N(1), FIRST, LAST, C_255, C_255, STOP};
static const struct kind kinds_F025[] = {C(2), N(7), N_ANY, DT, C_255, STOP};
static const struct kind kinds_F030[] = {N(2), C(2), C_255, N_ANY, N_ANY, STOP};
static const struct kind kinds_F035[] = {
    C(2), C_255, N_ANY, DT, N_ANY, N_ANY, N_ANY, N_ANY, C_255, STOP,
};
static const struct kind kinds_F200[] = {N(1), FIRST, LAST, STOP};
/* EQP_CNPJ is a name that does not begin CNPJ. */
static const struct kind kinds_F205[] = {C_255, C_255, N(14), C_255, N(1), STOP};
static const struct kind kinds_F210[] = {C_255, C_255, STOP};
static const struct kind kinds_F215[] = {
    N(1), DT, D(3), D(3), D(3), D(3), D(3), D(3), D(3), D(3),
    D(2), STOP,
};
static const struct kind kinds_F220[] = {
    C_255, D(3), D(3), D(3), D(3), D(3), D(3), STOP,
};
static const struct kind kinds_F225[] = {
    N(1), N(1), CNPJ, C(2), C_255, C(2), C_255, N_ANY, DT, D(2),
    D(2), D(2), D(3), C_255, STOP,
};
static const struct kind kinds_F230[] = {C_255, C_255, N_ANY, N_ANY, D(2), STOP};
static const struct kind kinds_F250[] = {N(1), FIRST, LAST, STOP};
static const struct kind kinds_F255[] = {
    DT, N(1), C_255, C(2), N(7), C_255, C_255, C_255, N(4), C_255,
    C_255, C_255, D(2), N(1), DT, C_255, D(2), C_255, STOP,
};

static const struct kind kinds_G020[] = {N(1), FIRST, LAST, STOP};
static const struct kind kinds_G025[] = {
    N(1), N(1), C(2), C_255, N_ANY, N_ANY, N_ANY, N_ANY, N_ANY, D(2),
    D(2), D(2), D(2), D(2), D(2), D(2), STOP,
};
static const struct kind kinds_G030[] = {
    C(2), N_ANY, N_ANY, N_ANY, N_ANY, N_ANY, D(2), D(2), D(2), D(2), STOP,
};
static const struct kind kinds_G050[] = {
    N(1), N(1), DT, C(4), N_ANY, D(2), D(2), D(2), D(2), D(2),
    D(2), D(2), D(2), D(2), D(2), D(2), D(2), D(2), STOP,
};
static const struct kind kinds_G400[] = {
    D(2), D(2), N(4), D(2), D(2), D(2), D(2), D(2), D(2), STOP,
};
static const struct kind kinds_G410[] = {
    N(1), D(2), D(2), D(2), D(2), D(2), D(2), D(2), D(2), D(2),
    D(2), D(2), D(2), STOP,
};
static const struct kind kinds_G420[] = {
    D(2), D(2), D(2), D(2), D(2), D(2), D(2), D(2), D(2), D(2),
    D(2), D(2), D(2), D(2), D(2), D(2), D(2), D(2), D(2), D(2),
    D(2), D(2), D(2), STOP,
};
static const struct kind kinds_G430[] = {N(3), D(2), STOP};
static const struct kind kinds_G440[] = {C(2), N(3), N(6), C_255, D(2), DT, STOP};
static const struct kind kinds_G450[] = {
    N(1), D(2), D(2), D(2), D(2), D(2), D(2), D(2), D(2), D(2),
    D(2), D(2), D(2), D(2), STOP,
};
static const struct kind kinds_G460[] = {
    C(2), D(2), D(2), D(2), D(2), D(2), D(2), D(2), D(2), D(2),
    D(2), D(2), D(2), D(2), STOP,
};

static const struct kind kinds_H020[] = {
    N(1), LAST, D(2), D(2), D(2), D(2), D(2), D(2), D(2), C_255,
    C_255, STOP,
};
static const struct kind kinds_H030[] = {
    N(1), C_255, N(1), N(8), C_255, C_255, D(6), D(6), D(2), D(2),
    D(2), D(2), D(2), D(2), C_255, STOP,
};
static const struct kind kinds_H040[] = {N(1), D(2), STOP};
static const struct kind kinds_H050[] = {N(1), D(2), STOP};
static const struct kind kinds_H060[] = {N(8), D(2), STOP};

/* The sheets fix a text for UF, here, and for two fields of 9020: only those of 0000 are judged. */
static const struct kind kinds_8001[] = {{MARK, 1, NULL}, C(2), STOP};
static const struct kind kinds_8020[] = {N(1), FIRST, LAST, STOP};
static const struct kind kinds_8030[] = {
    N(1), N(1), N(1), N(7), D(2), D(2), D(2), D(2), D(2), D(4), STOP,
};
static const struct kind kinds_8040[] = {
    N(1), D(2), D(2), N(4), D(2), D(2), D(2), STOP,
};
static const struct kind kinds_8050[] = {D(2), D(2), D(4), STOP};
static const struct kind kinds_8100[] = {N(1), FIRST, LAST, STOP};
static const struct kind kinds_8110[] = {N(1), D(2), D(2), D(2), D(2), STOP};
/* The sheet's column for decimals repeats the fields' numbers. */
static const struct kind kinds_8160[] = {N(1), FIRST, LAST, STOP};
static const struct kind kinds_8165[] = {D(2), D(2), D(2), D(2), D(2), STOP};
static const struct kind kinds_8170[] = {
    D(2), D(2), C_255, N(1), C_255, C_255, STOP,
};
static const struct kind kinds_8175[] = {N(1), D(2), C_255, C_255, STOP};
static const struct kind kinds_8180[] = {N(1), D(2), C_255, C_255, C_255, STOP};
static const struct kind kinds_8300[] = {N(1), FIRST, LAST, STOP};
static const struct kind kinds_8310[] = {
    N(1), N(2), D(2), D(2), D(2), D(2), D(2), D(2), D(2), STOP,
};
static const struct kind kinds_8500[] = {N(1), FIRST, LAST, STOP};
static const struct kind kinds_8505[] = {N(1), N(5), DT, N_ANY, N(1), STOP};
static const struct kind kinds_8510[] = {N(5), DT, N_ANY, STOP};
static const struct kind kinds_8515[] = {N_ANY, STOP};
static const struct kind kinds_8525[] = {
    C_255, C_255, N(10), C_255, D(2), N(4), STOP,
};
static const struct kind kinds_8530[] = {
    N(1), N(1), C_255, C(2), C_255, N_ANY, DT, D(2), D(2), D(2), STOP,
};
static const struct kind kinds_8535[] = {
    N_ANY, C_255, N(4), D(2), D(2), D(2), N_ANY, N_ANY, STOP,
};
static const struct kind kinds_8540[] = {
    D(2), N(4), D(2), D(2), D(2), N_ANY, N_ANY, STOP,
};
static const struct kind kinds_8545[] = {C(5), N_ANY, N_ANY, STOP};
static const struct kind kinds_8550[] = {D(2), N(4), D(2), STOP};
static const struct kind kinds_8555[] = {N(2), D(2), D(2), STOP};
static const struct kind kinds_8560[] = {
    D(2), D(2), D(2), D(2), D(2), D(2), D(2), D(2), D(2), D(2),
    D(2), STOP,
};
static const struct kind kinds_8565[] = {N(3), D(2), STOP};
static const struct kind kinds_8570[] = {
    D(2), D(2), D(2), D(2), D(2), D(2), D(2), D(2), D(2), D(2),
    D(2), STOP,
};
static const struct kind kinds_8580[] = {
    D(2), D(2), D(2), D(2), D(2), D(2), D(2), D(2), D(2), STOP,
};
static const struct kind kinds_8585[] = {N(1), D(2), D(2), D(2), STOP};
static const struct kind kinds_8590[] = {
    D(2), D(2), D(2), D(2), D(2), D(2), D(2), D(2), D(2), D(2),
    D(2), D(2), D(2), D(2), STOP,
};

/* ARQ_DT_INI, ARQ_CNPJ and ARQ_CPF are names that do not begin DT_, CNPJ or CPF. */
static const struct kind kinds_9020[] = {
    C(4), N(8), N(8), C_255, N(14), C(2), C(14), N(7), C_255, C(0),
    C(9), N(4), N(1), N(2), C(6), N(11), C_255, N_ANY, C_255, C(128), STOP,
};
/* It counts the lines of another file. */
static const struct kind kinds_9030[] = {C(4), N_ANY, STOP};
static const struct kind kinds_9040[] = {
    C_255, C_255, N(8), N(8), C_255, N(8), N(8), C_255, N(3), C(65536),
    C(65536), STOP,
};
static const struct kind kinds_9900[] = {{NAMED, 4, NULL}, {STATED, 0, NULL}, STOP};

#endif
