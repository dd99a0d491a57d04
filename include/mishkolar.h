/*
 * Mishkolar: the screen of a SIP call gateway.
 *
 * Every function takes any bytes and any numbers, always returns, reads nothing outside the bytes it is lent, keeps nothing and
 * allocates nothing. A pointer may be null where its length is 0. The parts of memory lent to one call must not overlap.
 * Link with libmishkolar.a, which `tools/build mishkolar` writes to target/staticlib.
 */
#ifndef MISHKOLAR_H
#define MISHKOLAR_H

#include <stddef.h>
#include <stdint.h>

#ifdef __cplusplus
extern "C" {
#endif

/*
 * No function takes more than so many bytes of stack, its return address included. The most that was measured is 19,288, of mishkolar_replay,
 * which has a table of calls of its own; mishkolar_screen takes 11,960. It is measured by tests/stack/run, and not proved.
 */
#define MISHKOLAR_STACK 19400

/* The bytes of a table of calls. */
#define MISHKOLAR_CALLS 6208

/*
 * Calls that stay hidden. The later requests of a withheld caller carry no Privacy. So up to 32 calls are remembered, each by a pair: its
 * Call-ID and the tag of its From, compared byte by byte (`a1` and `A1` are two tags). The library keeps nothing: the gateway keeps a table of
 * these calls, and lends it to each screening.
 *
 * The table is 32 places of 194 bytes, one behind the other. In a place
 *   byte 0             is the length of the Call-ID, 1 to 128;
 *   bytes 1 to 128     have the Call-ID at their front, each byte 33 to 126;
 *   byte 129           is the length of the tag, 1 to 64;
 *   bytes 130 to 193   have the tag at their front, a token: letters, digits and - . ! % * _ + ` ' ~
 * and what the two texts leave is not looked at. A table begins with zeros (memset), which hold no call. But any content is a table: a place
 * without a well-formed pair is free, and a pair that stands in several places counts once.
 *
 * What changes it:
 *   An accepted INVITE to side 1 whose Privacy withholds its caller, the first of its call or a later one, enters its pair, unless that is
 *   held already. All of one place is written: the first whose byte 0 is 0; where there is none, the first that is free in another way or
 *   holds the pair of an earlier place. What the two texts leave is 0.
 *   An accepted BYE to side 1 whose pair is held, after it is masked, removes it: zeros are left in every place that holds it.
 *   mishkolar_end_call removes a pair in the same way.
 * Nothing else does: no other request, no response, nothing that goes to side 0, nothing that is refused. Every accepted request to side 1
 * whose pair was held before is masked as a withheld INVITE is, whatever its Privacy says.
 *
 * A table belongs to one stream of calls: all messages of a call meet the same table, in their order. Another stream may have another one.
 * Threads do not share a table without a lock, held while the function runs.
 *
 * What is left to the gateway:
 *   What no BYE to side 1 ends, it ends with mishkolar_end_call; else the table fills up. An INVITE that was cancelled, or that the far end
 *   refused, keeps its pair: end it after its ACK has gone out, which is masked only while the pair is held. A BYE from side 1 has the
 *   pair's tag in To and removes nothing: end the pair after the answer to it has gone out. End a call too that the gateway itself gives up.
 *   What comes again, as over UDP, is not screened again, but goes out as it did before: a second BYE would find its pair gone, and show its
 *   From.
 *   At 18 there is no place left: answer 503, and end calls that are over. Where the gateway answers an INVITE by itself, the ACK to that
 *   ends at the gateway: nothing would mask it.
 */

/*
 * Screens one SIP message, a request or a response, that goes to a peer on a side: 0 trusted, 1 untrusted. Its start line says which it is.
 * calls is the table of calls.
 *
 * Accepted: *reason is 0, the outgoing message stands at the front of out, and its length is returned. The other bytes of out stay.
 * On side 1 an INVITE whose Privacy has one of the tokens `header`, `user` and `id`, in any letter case and whatever stands beside it, goes
 * out without any P-Asserted-Identity and with a From that is anonymous but for its tag. So does any request whose pair is in calls. A
 * response has the same answer on both sides.
 * Refused: *reason is 1 to 18, 0 is returned, and out and calls are untouched. Then
 *   *reply    is the SIP status to answer with; 0: send nothing (always for ACK and for a response);
 *   *detail   is at 9 the number of the field that came again, at 10 of the malformed one, at 12 the lowest missing number, at 14 the
 *             place of the required tag that we lack, at 16 the length needed; else 0;
 *   *missing  is at 12 how many mandatory fields are missing; else 0.
 * Reasons: 1 side, 2 over 8,192 bytes, 3 start line, 4 a field's shape or no empty line, 5 over 96 fields, 6 method (of a response: its
 * first CSeq is absent, malformed, or names none of INVITE, BYE, CANCEL and OPTIONS), 7 scheme of the Request-URI, 8 Request-URI, 9 a
 * field came again, 10 a malformed value, 11 Content-Length exceeds the bytes there, 12 mandatory field missing, 13 Max-Forwards is 0,
 * 14 a required tag we lack, 15 called number, 16 output longer than out, 17 status outside 100 to 699, 18 a withheld INVITE to side 1 whose
 * pair is new where 32 are held. The first that applies is told: of a request 1 to 15, 18, 16 in that order, of a response 1 to 5, 17, 6,
 * 9 to 12, 16. At 18 *reply is 503.
 * An INVITE may have one asserted identity, or a sip and a tel one, parted by a comma in one P-Asserted-Identity or in two of them. The
 * field that brings a third, or two of one scheme, is malformed: 10 with detail 15.
 * Fields: 1 Via, 2 Max-Forwards, 3 From, 4 To, 5 Call-ID, 6 CSeq, 7 Contact, 8 Content-Length, 9 Content-Type, 10 Route, 11 Reason,
 * 12 Allow, 13 Supported, 14 Require, 15 P-Asserted-Identity, 16 Privacy, 17 Accept, 18 Record-Route.
 * Which fields are mandatory, and which are ignored and do not go out, is said by a column (crates/sip/specs/Profile.antt). Requests have
 * one for each of INVITE, ACK, BYE, CANCEL and OPTIONS, and one more for an INVITE whose To has a tag. Responses have one for INVITE with
 * a status from 200 to 299, one for CANCEL, and one for all others.
 * room is enough for any message of len bytes where it is at least len + 1023.
 */
size_t mishkolar_screen(const uint8_t *message, size_t len, uint64_t side, uint8_t calls[MISHKOLAR_CALLS], uint8_t *out, size_t room,
                        uint64_t *reason, uint64_t *reply, uint64_t *detail, uint64_t *missing);

/*
 * Ends a call by hand: removes the pair of this Call-ID and this tag, and returns 0. Where it is not held, so also where the two are no
 * well-formed pair, 19 is returned and calls is untouched. The Call-ID is the reading of field 5. The tag is the value alone; in a message that
 * went out masked it is what stands behind `;tag=` in From.
 */
uint64_t mishkolar_end_call(uint8_t calls[MISHKOLAR_CALLS], const uint8_t *call_id, size_t id_len, const uint8_t *tag, size_t tag_len);

/*
 * How often the field of that number stands in the message, in long or compact form and any letter case; 0 where the message has a
 * reason of 2 to 5 or the number is not listed. Fields are counted, not what commas part in them. So of an INVITE that is accepted
 * mishkolar_count(.., 15) may be 2, a sip and a tel identity in two fields, and it is 1 where both stand in one: whoever reads the first
 * P-Asserted-Identity alone may miss the sip one. The calling number is found by mishkolar_calling_number.
 */
size_t mishkolar_count(const uint8_t *message, size_t len, uint64_t field);

/*
 * The value of the place-th field of that number, place from 1: its length is returned, and *start is where it starts in the message,
 * without the spaces, tabs and line breaks at both ends. It ends within the message. Where there is none, or it is empty, both are 0.
 */
size_t mishkolar_reading(const uint8_t *message, size_t len, uint64_t field, uint64_t place, size_t *start);

/*
 * The calling number, with its plus sign: the length is returned. *from_trunk is 1 where it is the trunk number, else it stands in the
 * message from *start on. It ends within the one or the other. Of a sip and a tel identity, in either order, it is the sip one's. It is
 * empty, and all three are 0, where the trunk number is no plus sign and 7 to 15 digits, the first not 0, or where the message has a
 * reason of 2 to 15 or 17 on side 0. A response without such a reason has the trunk number.
 */
size_t mishkolar_calling_number(const uint8_t *message, size_t len, const uint8_t *trunk, size_t trunk_len,
                                size_t *start, uint64_t *from_trunk);

/*
 * The regulator's quarter: records are replayed through the screen with room enough, and counted.
 *
 * A record is the two bytes 53 4E (hex), a byte for the side, two for the message's length, the high byte first, and the message. A text is
 * any bytes, read as records one after the other. Where a record would start, the text ends with 0 (nothing is left), 31 (a bad mark),
 * 32 (cut short) or 33 (a record after 1,000,000), in that order.
 *
 * What is counted so far stands in four places that the caller keeps and lends:
 *   counts  60 numbers, 20 for each line of the report: of relay callers (messages with a field named X-Relay-Mode, in any letter case,
 *           once or more) from counts[0] on, of the others from counts[20] on, of messages with reasons 1 to 5 from counts[40] on. In
 *           each line the first is how many were accepted, and the number at the place r after it how many were refused with reason r;
 *   *read   how many records were counted;
 *   *end    0, or the refusal 31, 32 or 33 that ended the text;
 *   calls   a table of calls, which goes from record to record, sides mixed.
 * All are 0 before the first record. Any numbers and any table may be lent; a count of 4,294,967,295 stays as it is.
 * The table is not the one that the gateway screens with: a BYE that is counted first would have its pair removed before it is masked. Ends by
 * hand are in no record, so a replay knows nothing of them and may count 18 where the gateway had a place.
 */

/*
 * Counts one record by the answer of the screen with the table calls. Where *end is not 0 nothing changes; else, where *read is 1,000,000 or
 * more, nothing is counted and *end is 33.
 * After any number of records, each with a side of at most 255 and a message of at most 65,535 bytes as a record has them, the first three
 * are what mishkolar_replay leaves for the same records as a text.
 */
void mishkolar_take_record(uint32_t counts[60], uint64_t *read, uint64_t *end, uint8_t calls[MISHKOLAR_CALLS], uint64_t side,
                           const uint8_t *message, size_t len);

/*
 * Replays a text whole: what its records count, how many were read, and how it ended. What stood there before is written over. It starts with
 * none held, and keeps its table to itself.
 */
void mishkolar_replay(const uint8_t *text, size_t len, uint32_t counts[60], uint64_t *read, uint64_t *end);

/*
 * Writes the report of such counts to the front of out, and returns its length: four lines, each ended by LF,
 *   relay CAME ACCEPTED RATE REASON=COUNT ...
 *   other CAME ACCEPTED RATE REASON=COUNT ...
 *   unread CAME ACCEPTED RATE REASON=COUNT ...
 *   end READ END
 * CAME is the sum of the line's 20 numbers, ACCEPTED the first of them. RATE is the refusals per 10,000 that came, rounded down, 0 where none
 * came. The pairs are those whose count is above 0, rising. The other bytes of out stay. Where room is too small 0 is returned and out is
 * untouched; 4,096 bytes are enough for any counts.
 */
size_t mishkolar_report(const uint32_t counts[60], uint64_t read, uint64_t end, uint8_t *out, size_t room);

/*
 * The SIP status for a Q.850 cause value, and in *row the cause whose row gave it: the cause itself where it is listed, else the class end
 * next above it (31, 47, 63, 79, 95, 111 or 127). Up to 127 *refusal is 0, *row is 1 to 127 and the status 404 to 503. Over 127 *refusal is 21,
 * and status and *row are 0. The listed causes have a star in the table that the program `cause_map` prints for an empty input
 * (crates/cause_table/stdout).
 */
uint64_t mishkolar_status_of_cause(uint64_t cause, uint64_t *row, uint64_t *refusal);

/* The Q.850 cause value for a SIP status. Outside 400 to 699: 0, and *refusal is 22; else *refusal is 0. */
uint64_t mishkolar_cause_of_status(uint64_t status, uint64_t *refusal);

#ifdef __cplusplus
}
#endif

#endif
