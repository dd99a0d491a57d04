/*
 * Mishkolar's box for the old exchange: the caller of a SIP call as the calling party number parameter of ITU-T Q.763 (ISUP), the number of
 * such a parameter for a SIP call, and the SIP status for a cause from the trunk.
 *
 * Every function takes any bytes and any numbers, always returns, reads nothing outside the bytes it is lent, keeps nothing and
 * allocates nothing. A pointer may be null where its length is 0. The parts of memory lent to one call must not overlap.
 * Link with libmishkolar_isup.a, which `tools/build mishkolar_isup` writes to target/staticlib. It does not need libmishkolar.a, which may
 * be linked beside it.
 */
#ifndef MISHKOLAR_ISUP_H
#define MISHKOLAR_ISUP_H

#include <stddef.h>
#include <stdint.h>

#ifdef __cplusplus
extern "C" {
#endif

/*
 * No function takes more than so many bytes of stack, its return address included. It is measured by tests/stack/run, which prints what
 * each function takes, and not proved.
 */
#define MISHKOLAR_ISUP_STACK 13200

/* The longest parameter field that is written, and the longest number, in bytes. */
#define MISHKOLAR_ISUP_PARAMETER 10
#define MISHKOLAR_ISUP_NUMBER 16

/*
 * The parameter field of Q.763, 3.10, with the values that are written and read here; bit 1 is the lowest of an octet.
 *   octet 1        bit 8        odd/even indicator: 1 where the number of address signals is odd, else 0
 *                  bits 7 to 1  nature of address indicator: 3 national (significant) number, 4 international number
 *   octet 2        bit 8        number incomplete indicator (NI): 0 complete
 *                  bits 7 to 5  numbering plan indicator: 1 ISDN (telephony) numbering plan, E.164
 *                  bits 4 and 3 address presentation restricted indicator: 0 presentation allowed, 1 presentation restricted
 *                  bits 2 and 1 screening indicator: 3 network provided
 *   octets 3 to n  bits 4 to 1  the 1st, 3rd, 5th .. address signal, a digit 0 to 9
 *                  bits 8 to 5  the 2nd, 4th, 6th .. address signal; in octet n, where their number is odd, the filler: 0
 * So octet 1 is 03, 04, 83 or 84 (hex), and octet 2 is 13 or 17. The octets of name and length are not part of it: in the optional part
 * of an IAM the caller puts 0A (hex), the length and the field. So +33187654321, withheld, with the code 33 and the next node at home, is the
 * field 83 17 81 67 45 23 01, and 0A 07 83 17 81 67 45 23 01 in the IAM.
 *
 * The country code is lent without a plus sign: 1 to 3 ASCII digits, the first not 0. A code that is no such text is refused with 41. Whoever
 * reads it from a setting can try it at the start: mishkolar_isup_caller of no bytes has the refusal 41 for a bad code and 43 for a good one.
 */

/*
 * The parameter field for the caller of an INVITE. code is our country code. home says whether the next node is at home, in the country of
 * that code: 0 no, anything else yes.
 *
 * Written: *reason, *reply, *detail and *missing are 0, the field stands at the front of parameter, and its length, 4 to 10, is returned. The
 * other bytes of parameter stay. It has the calling number of mishkolar.h: the number of the P-Asserted-Identity, of a sip and a tel one
 * the sip one's. Where home is not 0 and the digits behind its plus sign start with the code, the number is national and the code is left
 * out; else it is international. Presentation is restricted exactly where the INVITE's Privacy has one of the tokens `header`, `user` and `id`,
 * in any letter case. A restricted number has its digits in the field all the same: the trunk must lead to a side that is trusted.
 *
 * Refused: 0 is returned and parameter is untouched. *reason is the first of these that applies:
 *   2 to 15, 17  the screen's own, on side 0, with the *reply, *detail and *missing of mishkolar_screen (see mishkolar.h). 1 and 16 do not
 *                come: there is no side and no outgoing message;
 *   42           what the screen accepts, but no initial INVITE: another method, an INVITE whose To has a tag, or a response;
 *   41           a bad country code.
 * At 41 and 42 *reply, *detail and *missing are 0, and nothing is to be sent on their account. A gateway sends no IAM for what has 42, and
 * treats it as it treats all that mishkolar_screen accepts. 41 is no fault of the call, but of the gateway's setting.
 */
size_t mishkolar_isup_parameter(const uint8_t *message, size_t len, const uint8_t *code, size_t code_len, uint64_t home,
                                uint8_t parameter[MISHKOLAR_ISUP_PARAMETER],
                                uint64_t *reason, uint64_t *reply, uint64_t *detail, uint64_t *missing);

/*
 * The number of a parameter field, of any length, without the octets of its name and length. code is our country code.
 *
 * Read: *refusal is 0, the number stands at the front of number, and its length, 8 to 16, is returned. The other bytes of number stay, and no
 * zero byte ends it. It is a plus sign and 7 to 15 ASCII digits, the first not 0; of a national one the code stands behind the plus sign.
 * *id is 1 where presentation is restricted, else 0: with 1 `Privacy: id` goes with the P-Asserted-Identity of that number.
 *
 * Refused: 0 is returned, *id is 0 and number is untouched. *refusal is the first of these that applies:
 *   41  a bad country code, also where the number is international;
 *   43  cut short: under two octets, or the odd/even indicator is 1 and there is no third;
 *   44  an indicator with another value than those above: a nature of address other than 3 and 4, an incomplete number, a numbering plan
 *       other than 1, a presentation of 2 (address not available) or 3, a screening of 0, 1 or 2;
 *   45  the filler is not 0;
 *   46  an address signal over 9;
 *   47  what comes out is not a plus sign, a digit 1 to 9 and 6 to 14 digits; no address signals at all too.
 * The call then came without a number that can be asserted. Whether it goes on with the trunk's own number is for the gateway to say.
 *
 * What mishkolar_isup_parameter has written with the same code is read: the calling number, and *id 1 exactly where it was withheld.
 */
size_t mishkolar_isup_caller(const uint8_t *bytes, size_t len, const uint8_t *code, size_t code_len,
                             uint8_t number[MISHKOLAR_ISUP_NUMBER], uint64_t *id, uint64_t *refusal);

/*
 * The SIP status to reply with for a cause value from the trunk, by the map of mishkolar_status_of_cause: 404 to 503, and *refusal is 0. Over
 * 127 the status is 0 and *refusal is 21. In the cause indicators of a REL the cause value is bits 7 to 1 of its octet; bit 8, the extension,
 * is to be taken away.
 */
uint64_t mishkolar_isup_status(uint64_t cause, uint64_t *refusal);

#ifdef __cplusplus
}
#endif

#endif
