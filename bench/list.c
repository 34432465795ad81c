/* list in C: the yardstick that bench/run counts beside the proved program. It reads a trace from standard input and lists it, to the byte as
 * `list` does: the whole engine of document 01, each refusal, every way in which a trace can be malformed. Nothing of it is proved.
 *
 * It is as fast as we could make it. What an outcome does at a place is looked up: a row for each place, mode and kind of contract, an input for
 * each kind of outcome. Where no record has to be written, an event costs two table look-ups and three stores of text. What makes the tables
 * runs once, before the first event.
 *
 * R1 needs no test: no record that came from creation by these calls contradicts itself (`r1-never-given`). Sections are those of USB PD 3.2. */
#define _GNU_SOURCE
#include <stdint.h>
#include <stdio.h>
#include <string.h>
#include <unistd.h>

enum { HEADER = 8, EVENT = 12, EVENTS = 4096, LARGEST = HEADER + EVENT * EVENTS, LINE = 48 };
enum { SPR, EPR };
enum { KIND_PPS = 2, KIND_UNKNOWN = 4 };

/* Where the engine stands: a state and its await. Those from WRITING on write the record when they are entered. */
enum place {
    /* 8.3.3.2 source port */
    SEND_CAPABILITIES, EVALUATE, LOOK_UP, SEND_ACCEPT, READY, SAFE_5V, RECEIVE_ANYTHING, SEND_REJECT, SEND_WAIT, HARD_RESET_TIMER, HARD_RESET_RECEIVED,
    VCONN_OFF, DPM_HARD_RESET, VCONN_ON, GET_SINK_CAP, RECEIVE_SINK_CAP, INFORM_SINK_CAP, INFORM_NO_SINK_CAP, WAIT_NEW_CAPABILITIES,
    EPR_KEEP_ALIVE, GIVE_SOURCE_CAP, SWAPPED_VBUS,
    /* 8.3.3.4 soft reset, 8.3.3.6 not supported */
    SEND_SOFT_RESET, AWAIT_ACCEPT, SOFT_RESET, SEND_NOT_SUPPORTED, NOT_SUPPORTED_RECEIVED,
    /* 8.3.3.19 dual role */
    ROLE_EVALUATE, ROLE_ACCEPT, CHANGE_TO_UFP, CHANGE_TO_DFP, ROLE_SEND, ROLE_ANSWER, ROLE_REJECT,
    FAST_EVALUATE, FAST_ACCEPT, FAST_OFF, FAST_ASSERT_RD, FAST_SEND_PS_RDY, FAST_AWAIT_PS_RDY, GET_SOURCE_CAP_SPR, GET_SOURCE_CAP_EPR,
    INFORM_SOURCE_CAP, INFORM_NO_SOURCE_CAP, READ_SINK_CAP_SPR, READ_SINK_CAP_EPR, GIVE_SINK_CAP_SPR, GIVE_SINK_CAP_EPR,
    /* 8.3.3.20 VCONN swap, asked for by a message or by EPR */
    EVALUATE_SWAP, ACCEPT_SWAP, REJECT_SWAP, SEND_SWAP, SWAP_ANSWER, WAIT_FOR_VCONN, TURN_OFF_VCONN, TURN_ON_VCONN, SWAP_PS_RDY,
    EPR_SEND_SWAP, EPR_SWAP_ANSWER, EPR_WAIT_FOR_VCONN, EPR_TURN_OFF_VCONN, EPR_TURN_ON_VCONN, EPR_SWAP_PS_RDY,
    WRITING,
    SWAP_SOURCE_START = WRITING, STARTUP, DISCOVERY, AWAIT_REQUEST, SUPPLY, SEND_PS_RDY, HARD_RESET, CHANGE_ROLE, READY_AS_UFP, READY_AS_DFP,
    /* Under "standard" it is remembered who feeds VCONN. */
    SWAP_ACCEPTED, TURNED_OFF, TURNED_ON, EPR_SWAP_ACCEPTED, EPR_TURNED_OFF, EPR_TURNED_ON,
    STOPPED, HANDED_OVER, FINISHED, PLACES,
    /* What a row may say beside a place to enter. */
    NEGOTIATE = PLACES, RETYPE, REENTER, STOP_0, STOP_2, STOP_E,
    FINISH_0, FINISH_1, FINISH_2, FINISH_3, HAND_OVER_3, HAND_OVER_8 = HAND_OVER_3 + 5,
    REFUSE_2, REFUSE_3, REFUSE_4, REFUSE_5, REFUSE_6
};
enum { POWER_EVALUATE = HAND_OVER_3, POWER_SEND, EPR_ENTRY, EPR_EXIT_RECEIVED, EPR_SEND_EXIT, EPR_DISCOVER_CABLE };

/* What an event is, as far as any row tells events apart. */
enum input {
    BAD, DONE, FAILED_0, FAILED_1, FAILED, DPM_FAILED, NO_SAFE, LOOKUP, ACCEPT, REJECT, WAIT, NO, YES, DPM_EVENT,
    TIMEOUT = DPM_EVENT + 9, REENTRY = TIMEOUT + 4,
    MESSAGE, REQUEST = MESSAGE, BAD_REQUEST, EPR_REQUEST, BAD_EPR_REQUEST, EPR_ENTER, EPR_EXIT, EPR_MODE, EXTENDED, EXTENDED_1, EXTENDED_2, EXTENDED_3, OTHER,
    SINK_CAP, BAD_SINK_CAP, EPR_SINK_CAP, BAD_EPR_SINK_CAP, CONTROL, MESSAGES_END = CONTROL + 32, INPUTS = 128
};
enum { CODE_DONE = 1, CODE_FAILED, CODE_DPM_FAILED, CODE_NO_SAFE, CODE_MESSAGE, CODE_LOOKUP,
       CODE_EVALUATION, CODE_YES_NO, CODE_EVENT, CODE_TIMEOUT, CODE_REENTRY };
enum { CLASS_REQUEST, CLASS_EPR_REQUEST, CLASS_EPR_MODE, CLASS_CONTROL, CLASS_EXTENDED, CLASS_OTHER, CLASS_SINK_CAP, CLASS_EPR_SINK_CAP };
enum { T_ACCEPT = 3, T_REJECT = 4, T_PS_RDY = 6, T_GET_SOURCE_CAP = 7, T_GET_SINK_CAP = 8, T_DR_SWAP = 9, T_PR_SWAP = 10, T_VCONN_SWAP = 11, T_WAIT = 12,
       T_SOFT_RESET = 13, T_NOT_SUPPORTED = 16, T_FR_SWAP = 19 };

/* A row is a place with a variant: the mode, and whether the contract is explicit, and if so a PPS one. */
enum { NOT_EXPLICIT, EXPLICIT, EXPLICIT_PPS, VARIANTS = 8 };
#define VARIANT(mode, contract) ((mode) * 4 + (contract))

static uint8_t rows[PLACES * VARIANTS][INPUTS];   /* what an input does: a place to enter, or what stands after PLACES */
static char tails[PLACES * VARIANTS][16];         /* the actions of entering it, with the newline; the last byte is their length */
static uint8_t plain[65536];                      /* the input of an event without b and words, by its first two bytes */
static uint8_t in[LARGEST + 1 + 8];
static char out[LINE * (EVENTS + 2)];

/* ---------------------------------------------------------------- the tables */

static void on_in(int mode, int place, int input, int then)
{
    for (int contract = 0; contract < 4; contract++)
        rows[place * VARIANTS + VARIANT(mode, contract)][input] = (uint8_t)then;
}

static void on(int place, int input, int then) { on_in(SPR, place, input, then), on_in(EPR, place, input, then); }

static void on_failed(int place, int then) { on(place, FAILED_0, then), on(place, FAILED_1, then), on(place, FAILED, then); }

static void on_messages(int mode, int place, int then)
{
    for (int input = MESSAGE; input < MESSAGES_END; input++)
        on_in(mode, place, input, then);
}

static void done(int place, int then) { on(place, DONE, then); }
static void sent(int place, int then) { on(place, DONE, then), on_failed(place, STOP_E); }
static void drove(int place, int then, int failed) { on(place, DONE, then), on(place, DPM_FAILED, failed); }
static void asked(int place, int yes, int no) { on(place, YES, yes), on(place, NO, no); }
static void received(int place, int type, int then) { on(place, CONTROL + type, then), on_failed(place, STOP_E); }

/* 8.3.3.2: what follows an await of the source port. */
static void source_port(void)
{
    done(SWAP_SOURCE_START, SWAPPED_VBUS);
    done(SWAPPED_VBUS, SEND_CAPABILITIES), done(STARTUP, SEND_CAPABILITIES), done(DISCOVERY, SEND_CAPABILITIES);
    sent(SEND_CAPABILITIES, AWAIT_REQUEST);
    on_failed(AWAIT_REQUEST, STOP_E);
    on_in(SPR, AWAIT_REQUEST, REQUEST, NEGOTIATE), on_in(SPR, AWAIT_REQUEST, BAD_REQUEST, STOP_2);
    on_in(EPR, AWAIT_REQUEST, EPR_REQUEST, NEGOTIATE), on_in(EPR, AWAIT_REQUEST, BAD_EPR_REQUEST, STOP_2);
    on(LOOK_UP, LOOKUP, RETYPE);
    on(EVALUATE, ACCEPT, SEND_ACCEPT), on(EVALUATE, REJECT, SEND_REJECT), on(EVALUATE, WAIT, SEND_WAIT);
    sent(SEND_ACCEPT, SUPPLY), drove(SUPPLY, SEND_PS_RDY, FINISH_1), sent(SEND_PS_RDY, READY);
    sent(SEND_REJECT, WAIT_NEW_CAPABILITIES), sent(SEND_WAIT, WAIT_NEW_CAPABILITIES);
    for (int mode = SPR; mode <= EPR; mode++)
        for (int contract = EXPLICIT; contract <= EXPLICIT_PPS; contract++) {
            rows[SEND_REJECT * VARIANTS + VARIANT(mode, contract)][DONE] = READY;
            rows[SEND_WAIT * VARIANTS + VARIANT(mode, contract)][DONE] = READY;
        }
    drove(SAFE_5V, RECEIVE_ANYTHING, STOP_0), on(SAFE_5V, NO_SAFE, FINISH_3);
    on_messages(SPR, RECEIVE_ANYTHING, RECEIVE_ANYTHING), on_messages(EPR, RECEIVE_ANYTHING, RECEIVE_ANYTHING);
    on_failed(RECEIVE_ANYTHING, RECEIVE_ANYTHING), on(RECEIVE_ANYTHING, FAILED_0, HARD_RESET);
    for (int event = 0; event < 9; event++)
        on(WAIT_NEW_CAPABILITIES, DPM_EVENT + event, event == 1 ? SEND_CAPABILITIES : WAIT_NEW_CAPABILITIES);
    on(WAIT_NEW_CAPABILITIES, TIMEOUT + 3, WAIT_NEW_CAPABILITIES);
    sent(HARD_RESET, HARD_RESET_TIMER), done(HARD_RESET_TIMER, VCONN_OFF), done(HARD_RESET_RECEIVED, VCONN_OFF);
    drove(VCONN_OFF, DPM_HARD_RESET, FINISH_1), drove(DPM_HARD_RESET, VCONN_ON, FINISH_1), drove(VCONN_ON, STARTUP, FINISH_1);
    sent(GET_SINK_CAP, RECEIVE_SINK_CAP);
    on_failed(RECEIVE_SINK_CAP, STOP_E), on(RECEIVE_SINK_CAP, FAILED_1, INFORM_NO_SINK_CAP);
    on_in(SPR, RECEIVE_SINK_CAP, SINK_CAP, INFORM_SINK_CAP), on_in(SPR, RECEIVE_SINK_CAP, BAD_SINK_CAP, INFORM_NO_SINK_CAP);
    on_in(EPR, RECEIVE_SINK_CAP, EPR_SINK_CAP, INFORM_SINK_CAP), on_in(EPR, RECEIVE_SINK_CAP, BAD_EPR_SINK_CAP, INFORM_NO_SINK_CAP);
    done(INFORM_SINK_CAP, READY), done(INFORM_NO_SINK_CAP, READY);
    sent(EPR_KEEP_ALIVE, READY), sent(GIVE_SOURCE_CAP, READY), sent(SEND_NOT_SUPPORTED, READY), done(NOT_SUPPORTED_RECEIVED, READY);
    sent(SEND_SOFT_RESET, AWAIT_ACCEPT), received(AWAIT_ACCEPT, T_ACCEPT, SEND_CAPABILITIES), sent(SOFT_RESET, SEND_CAPABILITIES);
}

/* 8.3.3.19 and 8.3.3.20: data and fast role swap, capabilities of the other role, VCONN swap. */
static void swaps(int vconn_source, int standard)
{
    asked(ROLE_EVALUATE, ROLE_ACCEPT, ROLE_REJECT), sent(ROLE_ACCEPT, CHANGE_ROLE), sent(ROLE_REJECT, READY);
    done(CHANGE_TO_UFP, READY_AS_UFP), done(CHANGE_TO_DFP, READY_AS_DFP), sent(ROLE_SEND, ROLE_ANSWER);
    on(ROLE_ANSWER, CONTROL + T_ACCEPT, CHANGE_ROLE), on(ROLE_ANSWER, CONTROL + T_REJECT, READY), on(ROLE_ANSWER, CONTROL + T_WAIT, READY);
    on_failed(ROLE_ANSWER, STOP_E), on(ROLE_ANSWER, FAILED_1, READY);
    asked(FAST_EVALUATE, FAST_ACCEPT, HARD_RESET), on(FAST_ACCEPT, DONE, FAST_OFF), on_failed(FAST_ACCEPT, HARD_RESET);
    done(FAST_OFF, FAST_ASSERT_RD), done(FAST_ASSERT_RD, FAST_SEND_PS_RDY), sent(FAST_SEND_PS_RDY, FAST_AWAIT_PS_RDY);
    received(FAST_AWAIT_PS_RDY, T_PS_RDY, FINISH_0);
    for (int mode = SPR; mode <= EPR; mode++) {
        sent(GET_SOURCE_CAP_SPR + mode, INFORM_SOURCE_CAP), on(GET_SOURCE_CAP_SPR + mode, FAILED_1, INFORM_NO_SOURCE_CAP);
        done(READ_SINK_CAP_SPR + mode, GIVE_SINK_CAP_SPR + mode), sent(GIVE_SINK_CAP_SPR + mode, READY);
    }
    done(INFORM_SOURCE_CAP, READY), done(INFORM_NO_SOURCE_CAP, READY);
    for (int by_epr = 0; by_epr <= 1; by_epr++) {
        int first = by_epr ? EPR_SEND_SWAP - SEND_SWAP : 0, end = by_epr ? EPR_DISCOVER_CABLE : READY;
        int writes = by_epr ? EPR_SWAP_ACCEPTED - SWAP_ACCEPTED : 0, answer = first + SWAP_ANSWER;
        int accepted = standard ? writes + SWAP_ACCEPTED : first + (vconn_source ? WAIT_FOR_VCONN : TURN_ON_VCONN);
        sent(first + SEND_SWAP, answer);
        on_messages(SPR, answer, STOP_2), on_messages(EPR, answer, STOP_2);
        on(answer, CONTROL + T_ACCEPT, accepted), on(answer, CONTROL + T_REJECT, READY), on(answer, CONTROL + T_WAIT, READY);
        on(answer, CONTROL + T_NOT_SUPPORTED, NOT_SUPPORTED_RECEIVED), on_failed(answer, STOP_E), on(answer, FAILED_1, READY);
        received(first + WAIT_FOR_VCONN, T_PS_RDY, first + TURN_OFF_VCONN), drove(first + TURN_OFF_VCONN, standard ? writes + TURNED_OFF : end, FINISH_2);
        drove(first + TURN_ON_VCONN, standard ? writes + TURNED_ON : first + SWAP_PS_RDY, FINISH_2), sent(first + SWAP_PS_RDY, end);
    }
    asked(EVALUATE_SWAP, ACCEPT_SWAP, REJECT_SWAP), sent(REJECT_SWAP, READY);
    sent(ACCEPT_SWAP, standard ? SWAP_ACCEPTED : vconn_source ? WAIT_FOR_VCONN : TURN_ON_VCONN);
}

/* Ready: the messages by class and type, the events of the device policy manager, the timeouts that run. */
static void ready(int dual_role)
{
    static const uint8_t events[9] = { READY, SEND_CAPABILITIES, GET_SINK_CAP, GET_SOURCE_CAP_SPR, GET_SOURCE_CAP_EPR,
                                       EPR_SEND_EXIT, SEND_SWAP, ROLE_SEND, POWER_SEND };
    for (int mode = SPR; mode <= EPR; mode++) {
        on_messages(mode, READY, SEND_NOT_SUPPORTED);
        on_in(mode, READY, REQUEST, mode == SPR ? NEGOTIATE : STOP_0), on_in(mode, READY, EPR_REQUEST, mode == EPR ? NEGOTIATE : STOP_0);
        on_in(mode, READY, mode == SPR ? BAD_EPR_REQUEST : BAD_REQUEST, STOP_0);
        on_in(mode, READY, EPR_ENTER, mode == SPR ? EPR_ENTRY : HARD_RESET), on_in(mode, READY, EPR_EXIT, mode == SPR ? HARD_RESET : EPR_EXIT_RECEIVED);
        on_in(mode, READY, CONTROL + T_GET_SOURCE_CAP, mode == SPR ? SEND_CAPABILITIES : GIVE_SOURCE_CAP);
        on_in(mode, READY, EXTENDED_1, mode == SPR ? GIVE_SOURCE_CAP : SEND_CAPABILITIES), on_in(mode, READY, EXTENDED_3, EPR_KEEP_ALIVE);
        if (dual_role) {
            on_in(mode, READY, CONTROL + T_DR_SWAP, mode == SPR ? ROLE_EVALUATE : HARD_RESET), on_in(mode, READY, CONTROL + T_PR_SWAP, POWER_EVALUATE);
            on_in(mode, READY, CONTROL + T_FR_SWAP, FAST_EVALUATE), on_in(mode, READY, CONTROL + T_GET_SINK_CAP, READ_SINK_CAP_SPR);
            on_in(mode, READY, EXTENDED_2, READ_SINK_CAP_EPR);
        }
    }
    on(READY, CONTROL + T_SOFT_RESET, SOFT_RESET), on(READY, CONTROL + T_VCONN_SWAP, EVALUATE_SWAP);
    on(READY, CONTROL + T_NOT_SUPPORTED, NOT_SUPPORTED_RECEIVED);
    on_failed(READY, STOP_E);
    for (int event = 0; event < 9; event++)
        on(READY, DPM_EVENT + event, events[event]);
    on_in(EPR, READY, TIMEOUT + 2, HARD_RESET);
    for (int mode = SPR; mode <= EPR; mode++)
        rows[READY * VARIANTS + VARIANT(mode, EXPLICIT_PPS)][TIMEOUT + 1] = HARD_RESET;
}

static void fill_rows(int dual_role, int vconn_source, int standard)
{
    memset(rows, REFUSE_5, sizeof rows);
    memset(rows[STOPPED * VARIANTS], REFUSE_4, sizeof rows[0] * VARIANTS * 2);
    memset(rows[FINISHED * VARIANTS], REFUSE_2, sizeof rows[0] * VARIANTS);
    for (int place = 0; place < STOPPED; place++)
        on(place, REENTRY, REFUSE_3);
    on(STOPPED, REENTRY, REENTER), on(HANDED_OVER, REENTRY, REENTER);
    source_port(), swaps(vconn_source, standard), ready(dual_role);
}

static void act(int mode, int place, const char *actions)
{
    for (int contract = 0; contract < 4; contract++) {
        char *tail = tails[place * VARIANTS + VARIANT(mode, contract)];
        tail[15] = (char)sprintf(tail, " %s\n", actions);
    }
}

/* The actions that entering a place issues, in SPR and in EPR. Under "standard" a give answers by the message that asked: in SPR that is
 * EPR_Get_Source_Cap, in EPR Get_Source_Cap, the other of each leading to SEND_CAPABILITIES. */
static void fill_tails(int standard)
{
    static const struct { uint8_t place; char spr[9], epr[9]; } all[] = {
        { SEND_CAPABILITIES, "4.0", "4.1" }, { EVALUATE, "7.0", "7.0" }, { LOOK_UP, "6.0", "6.0" }, { SEND_ACCEPT, "8.3", "8.3" }, { READY, "11.0", "11.2" },
        { SAFE_5V, "10.0", "10.0" }, { RECEIVE_ANYTHING, "12.0", "12.0" }, { SEND_REJECT, "8.4", "8.4" }, { SEND_WAIT, "8.12", "8.12" },
        { HARD_RESET_TIMER, "2.3", "2.3" }, { HARD_RESET_RECEIVED, "2.3", "2.3" }, { VCONN_OFF, "14.0", "14.0" }, { DPM_HARD_RESET, "15.0", "15.0" },
        { VCONN_ON, "14.1", "14.1" }, { GET_SINK_CAP, "8.8", "16.2" }, { RECEIVE_SINK_CAP, "17.1", "17.2" }, { INFORM_SINK_CAP, "18.1", "18.2" },
        { INFORM_NO_SINK_CAP, "18.17", "18.18" }, { WAIT_NEW_CAPABILITIES, "19.0", "19.0" }, { EPR_KEEP_ALIVE, "16.4", "16.4" },
        { GIVE_SOURCE_CAP, "4.0", "4.1" }, { SWAPPED_VBUS, "3.0", "3.0" }, { SEND_SOFT_RESET, "1.0 8.13", "1.0 8.13" }, { AWAIT_ACCEPT, "17.3", "17.3" },
        { SOFT_RESET, "1.0 8.3", "1.0 8.3" }, { SEND_NOT_SUPPORTED, "8.16", "8.16" }, { NOT_SUPPORTED_RECEIVED, "18.4", "18.4" },
        { ROLE_EVALUATE, "27.0", "27.0" }, { ROLE_ACCEPT, "8.3", "8.3" }, { CHANGE_TO_UFP, "28.0", "28.0" }, { CHANGE_TO_DFP, "28.1", "28.1" },
        { ROLE_SEND, "8.9", "8.9" }, { ROLE_ANSWER, "29.0", "29.0" }, { ROLE_REJECT, "8.4", "8.4" },
        { FAST_EVALUATE, "24.0", "24.0" }, { FAST_ACCEPT, "8.3", "8.3" }, { FAST_OFF, "25.0", "25.0" }, { FAST_ASSERT_RD, "26.0", "26.0" },
        { FAST_SEND_PS_RDY, "8.6", "8.6" }, { FAST_AWAIT_PS_RDY, "17.4", "17.4" }, { GET_SOURCE_CAP_SPR, "20.0", "20.0" }, { GET_SOURCE_CAP_EPR, "20.1", "20.1" },
        { INFORM_SOURCE_CAP, "18.3", "18.3" }, { INFORM_NO_SOURCE_CAP, "18.19", "18.19" }, { READ_SINK_CAP_SPR, "21.0", "21.0" },
        { READ_SINK_CAP_EPR, "21.0", "21.0" }, { GIVE_SINK_CAP_SPR, "22.0", "22.0" }, { GIVE_SINK_CAP_EPR, "22.1", "22.1" }, { EVALUATE_SWAP, "23.0", "23.0" },
        { ACCEPT_SWAP, "8.3", "8.3" }, { REJECT_SWAP, "8.4", "8.4" }, { SEND_SWAP, "8.11", "8.11" }, { SWAP_ANSWER, "17.6", "17.6" },
        { WAIT_FOR_VCONN, "17.5", "17.5" }, { TURN_OFF_VCONN, "14.0", "14.0" }, { TURN_ON_VCONN, "14.1", "14.1" }, { SWAP_PS_RDY, "8.6", "8.6" },
        { EPR_SEND_SWAP, "8.11", "8.11" }, { EPR_SWAP_ANSWER, "17.6", "17.6" }, { EPR_WAIT_FOR_VCONN, "17.5", "17.5" }, { EPR_TURN_OFF_VCONN, "14.0", "14.0" },
        { EPR_TURN_ON_VCONN, "14.1", "14.1" }, { EPR_SWAP_PS_RDY, "8.6", "8.6" }, { SWAP_SOURCE_START, "1.0 2.1", "1.0 2.1" }, { STARTUP, "1.0 3.0", "1.0 3.0" },
        { DISCOVERY, "2.2", "2.2" }, { AWAIT_REQUEST, "5.0", "5.1" }, { SUPPLY, "9.0", "9.0" }, { SEND_PS_RDY, "8.6", "8.6" }, { HARD_RESET, "13.0", "13.0" },
    };
    for (size_t i = 0; i < sizeof all / sizeof all[0]; i++)
        act(SPR, all[i].place, all[i].spr), act(EPR, all[i].place, all[i].epr);
    if (standard)
        act(SPR, GIVE_SOURCE_CAP, "4.1"), act(EPR, GIVE_SOURCE_CAP, "4.0");
    tails[READY * VARIANTS + VARIANT(SPR, EXPLICIT_PPS)][4] = '1';
    tails[READY * VARIANTS + VARIANT(EPR, EXPLICIT_PPS)][4] = '3';
}

/* The events without b and words. */
static void fill_plain(void)
{
#define PLAIN(code, a) plain[(code) + 256 * (a)]
    PLAIN(CODE_DONE, 0) = DONE, PLAIN(CODE_DPM_FAILED, 0) = DPM_FAILED, PLAIN(CODE_NO_SAFE, 0) = NO_SAFE;
    for (int a = 0; a < 256; a++)
        PLAIN(CODE_FAILED, a) = a == 0 ? FAILED_0 : a == 1 ? FAILED_1 : FAILED, PLAIN(CODE_REENTRY, a) = REENTRY;
    for (int a = 0; a < 9; a++)
        PLAIN(CODE_EVENT, a) = (uint8_t)(DPM_EVENT + a);
    for (int a = 0; a < 6; a++)
        PLAIN(CODE_LOOKUP, a) = LOOKUP;
    for (int a = 1; a < 4; a++)
        PLAIN(CODE_TIMEOUT, a) = (uint8_t)(TIMEOUT + a), PLAIN(CODE_EVALUATION, a - 1) = (uint8_t)(ACCEPT + a - 1);
    PLAIN(CODE_YES_NO, 0) = NO, PLAIN(CODE_YES_NO, 1) = YES;
    static const uint8_t bad_payload[8] = { BAD_REQUEST, BAD_EPR_REQUEST, EPR_MODE, CONTROL, EXTENDED, OTHER, BAD_SINK_CAP, BAD_EPR_SINK_CAP };
    for (int class = 0; class < 8; class++)
        PLAIN(CODE_MESSAGE, class) = bad_payload[class];
}

/* ---------------------------------------------------------------- an event */

/* An event that has b or words: a message with a good payload, or a re-entry with a mode change. */
static inline unsigned payload(uint64_t event, uint32_t second)
{
    unsigned code = event & 0xff, class = event >> 8 & 0xff, b = event >> 16 & 0xffff;
    uint32_t first = (uint32_t)(event >> 32);
    if (code == CODE_REENTRY)
        return first | second ? BAD : REENTRY;
    if (code != CODE_MESSAGE || class > CLASS_EPR_SINK_CAP)
        return BAD;
    if (class == CLASS_CONTROL)
        return b > 31 || first | second ? BAD : CONTROL + b;
    if (class <= CLASS_EPR_REQUEST)
        return b < 1 || b > 6 || (b < 6 && second) ? BAD : class == CLASS_REQUEST ? REQUEST : EPR_REQUEST;
    if (b != 1 || second)
        return BAD;
    if (class == CLASS_EPR_MODE)
        return first >> 24 == 1 ? EPR_ENTER : first >> 24 == 5 ? EPR_EXIT : EPR_MODE;
    if (class == CLASS_EXTENDED)
        return first > 255 ? BAD : first >= 1 && first <= 3 ? EXTENDED + first : EXTENDED;
    return class == CLASS_OTHER || first ? BAD : class == CLASS_SINK_CAP ? SINK_CAP : EPR_SINK_CAP;
}

/* The record, as far as a listing can tell records apart: of a request the kind alone counts. `middle` is what a line says of it. */
struct record {
    unsigned mode, contract, kind, hard, caps, hard_limit, caps_limit, dfp, vconn_source, created_vconn_source;
    char letter, middle[16];
    unsigned length;
};

/* A number of at most three digits. */
static inline char *decimal(char *to, unsigned n)
{
    if (n >= 100)
        *to++ = (char)('0' + n / 100);
    if (n >= 10)
        *to++ = (char)('0' + n / 10 % 10);
    *to++ = (char)('0' + n % 10);
    return to;
}

static inline void tell(struct record *r)
{
    char *to = r->middle;
    if (__builtin_expect(r->hard < 10 && r->caps < 10, 1)) {
        uint64_t text;
        memcpy(&text, " W \0 0 0", 8);
        text += (uint64_t)r->letter << 24 | (uint64_t)r->hard << 40 | (uint64_t)r->caps << 56;
        memcpy(to, &text, 8);
        r->length = 8;
        return;
    }
    memcpy(to, " W ", 3);
    to[3] = r->letter, to[4] = ' ';
    to = decimal(to + 5, r->hard);
    *to++ = ' ';
    r->length = (unsigned)(decimal(to, r->caps) - r->middle);
}

/* Entering a place that writes; the place that is come to in the end. */
static unsigned enter(struct record *r, unsigned place)
{
    switch (place) {
    case STARTUP: r->letter = 'D', r->contract = NOT_EXPLICIT; /* fall through */
    case SWAP_SOURCE_START: r->mode = SPR, r->caps = 0, r->vconn_source = r->created_vconn_source; break;
    case DISCOVERY:
        if (r->caps == r->caps_limit)
            return SAFE_5V;
        r->caps++;
        break;
    case AWAIT_REQUEST:
        if (!r->hard)
            return place;
        r->hard = 0;
        break;
    case SUPPLY: r->letter = 'T', r->contract = NOT_EXPLICIT; break;
    case SEND_PS_RDY: r->letter = 'E', r->contract = r->kind == KIND_PPS ? EXPLICIT_PPS : EXPLICIT; break;
    case HARD_RESET:
        if (r->hard == r->hard_limit)
            return FINISH_1;
        r->hard++;
        break;
    case CHANGE_ROLE: return r->dfp ? CHANGE_TO_UFP : CHANGE_TO_DFP;
    case READY_AS_UFP: r->dfp = 0; return READY;
    case READY_AS_DFP: r->dfp = 1; return READY;
    case SWAP_ACCEPTED: return r->vconn_source ? WAIT_FOR_VCONN : TURN_ON_VCONN;
    case TURNED_OFF: r->vconn_source = 0; return READY;
    case TURNED_ON: r->vconn_source = 1; return SWAP_PS_RDY;
    case EPR_SWAP_ACCEPTED: return r->vconn_source ? EPR_WAIT_FOR_VCONN : EPR_TURN_ON_VCONN;
    case EPR_TURNED_OFF: r->vconn_source = 0; return EPR_DISCOVER_CABLE;
    case EPR_TURNED_ON: r->vconn_source = 1; return EPR_SWAP_PS_RDY;
    }
    tell(r);
    return place;
}

/* A re-entry on a stopped or handed-over record: the mode change, and the place or end that the target stands for. */
static unsigned reenter(struct record *r, unsigned place, unsigned target, unsigned change)
{
    static const uint8_t targets[12] = { DISCOVERY, SEND_CAPABILITIES, READY, HARD_RESET, HARD_RESET_RECEIVED, SEND_SOFT_RESET, SOFT_RESET, SEND_NOT_SUPPORTED,
                                         FINISH_2, STARTUP, EPR_SEND_SWAP, FINISH_0 };
    int handed_over = place == HANDED_OVER;
    if (target > (handed_over ? 11 : 9) || change > (handed_over ? 2 : 0))
        return REFUSE_6;
    if (change)
        r->mode = change == 1 ? SPR : EPR;
    return targets[target];
}

/* The end of a line of an answer that is not W: letter and number, then the middle without its ` W`. */
static char *rest(char *to, const struct record *r, char letter, unsigned number)
{
    to[0] = ' ', to[1] = letter, to[2] = '.';
    to = decimal(to + 3, number);
    memcpy(to, r->middle + 2, 14);
    to += r->length - 2;
    *to++ = '\n';
    return to;
}

/* ---------------------------------------------------------------- a trace */

/* The last digit was counted past 9: it is 0, and the one before it goes up. Returns how many digits there are now. */
static inline unsigned carry(uint32_t *number, unsigned digits)
{
    char text[8];
    unsigned place = digits - 1;
    memcpy(text, number, 4);
    for (; place && text[place] > '9'; text[--place]++)
        text[place] = '0';
    if (text[0] > '9') {
        memset(text, '0', 4);
        text[0] = '1', digits++;
    }
    memcpy(number, text, 4);
    return digits;
}

static char *list(size_t size, char *to)
{
    static const uint8_t retyped[6] = { KIND_UNKNOWN, 0, 0, 1, KIND_PPS, 3 };
    static const char refusals[] = " R2\n R3\n R4\n R5\n R6\n";
    uint8_t flags = in[5];
    if (size < HEADER || size > LARGEST || memcmp(in, "PES\1\0", 5) || flags > 15)
        return stpcpy(to, "0 R8\n");
    if (!in[6] || !in[7] || (flags & 3) == 2)
        return stpcpy(to, "0 R7\n");
    fill_rows(flags & 1, flags & 4, flags & 8), fill_tails(flags & 8), fill_plain();

    struct record r = { .mode = SPR, .hard_limit = in[6], .caps_limit = in[7], .letter = flags & 2 ? 'I' : 'D', .dfp = 1,
                        .created_vconn_source = (flags & 4) != 0 };
    unsigned at = enter(&r, flags & 2 ? SWAP_SOURCE_START : STARTUP) * VARIANTS, variant = 0;
    to += sprintf(to, "0%.*s%s", (int)r.length, r.middle, tails[at]);

    /* The entry's number as text, its last digit counted up by `one`; `left` numbers are to come before a digit is carried. */
    uint32_t number = '0', one = 1;
    unsigned digits = 1, left = 10;
    const uint8_t *event = in + HEADER, *end = in + size;
    for (; end - event >= EVENT; event += EVENT) {
        uint64_t fields;
        uint32_t second;
        number += one;
        if (--left == 0) {
            digits = carry(&number, digits);
            one = 1u << 8 * (digits - 1), left = 10;
        }
        memcpy(to, &number, 4);
        to += digits;
        memcpy(&fields, event, 8);
        memcpy(&second, event + 8, 4);
        unsigned input = fields >> 16 | second ? payload(fields, second) : plain[fields];
        unsigned then = rows[at][input];
        if (input == BAD)
            return stpcpy(to, " R8\n");
    entered:
        if (__builtin_expect(then < WRITING, 1)) {
            at = then * VARIANTS + variant;
        waits:
            memcpy(to, r.middle, 16);
            to += r.length;
            memcpy(to, tails[at], 16);
            to += tails[at][15];
            continue;
        }
        if (then < STOPPED) {
            then = enter(&r, then);
            variant = VARIANT(r.mode, r.contract);
            if (then < STOPPED) {
                at = then * VARIANTS + variant;
                goto waits;
            }
        }
        if (then == NEGOTIATE || then == RETYPE) {
            r.kind = then == RETYPE ? retyped[event[1]] : event[2] - 1u;
            then = then == NEGOTIATE && r.kind == KIND_UNKNOWN ? LOOK_UP : EVALUATE;
            goto entered;
        }
        if (then == REENTER) {
            then = reenter(&r, at / VARIANTS, event[1], event[2] | event[3] << 8);
            variant = VARIANT(r.mode, r.contract);
            if (then < STOPPED)
                goto entered;
        }
        if (then >= REFUSE_2) {
            memcpy(to, refusals + 4 * (then - REFUSE_2), 4);
            to += 4;
        } else if (then >= HAND_OVER_3) {
            to = rest(to, &r, 'H', then - HAND_OVER_3 + 3), at = HANDED_OVER * VARIANTS;
        } else if (then >= FINISH_0) {
            to = rest(to, &r, 'F', then - FINISH_0), at = FINISHED * VARIANTS;
        } else {
            to = rest(to, &r, 'S', then == STOP_0 ? 0 : then == STOP_2 ? 2 : event[1]), at = STOPPED * VARIANTS;
        }
    }
    if (event == end)
        return to;
    return to + sprintf(to, "%u R8\n", (unsigned)((event - in) / EVENT) + 1);
}

int main(void)
{
    size_t size = 0, done = 0;
    for (ssize_t got; size <= LARGEST && (got = read(0, in + size, LARGEST + 1 - size)) != 0; size += (size_t)got)
        if (got < 0)
            return fputs("list: cannot read standard input\n", stderr), 1;
    size_t length = (size_t)(list(size, out) - out);
    while (done < length) {
        ssize_t put = write(1, out + done, length - done);
        if (put < 0)
            return fputs("list: cannot write to standard output\n", stderr), 1;
        done += (size_t)put;
    }
    return 0;
}
