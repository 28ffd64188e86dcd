/* The calls of include/grzelotka.h under another prefix. */
#ifndef PLAIN_H
#define PLAIN_H

#include <stddef.h>
#include <stdint.h>

size_t plain_record_bytes(void);
uint8_t plain_fresh(uint8_t *record, size_t record_len);
uint8_t plain_read(const uint8_t *packet, size_t packet_len, uint16_t *opcode, uint8_t *payload_len);
uint8_t plain_handle(uint8_t *record, size_t record_len, uint8_t *flash, size_t flash_len, const uint8_t *packet, size_t packet_len,
                     uint8_t *reply, size_t reply_len);
uint8_t plain_handle_why(uint8_t *record, size_t record_len, uint8_t *flash, size_t flash_len, const uint8_t *packet, size_t packet_len,
                         uint8_t *reply, size_t reply_len, uint8_t *reason);
uint8_t plain_restart(uint8_t *record, size_t record_len, uint8_t *event, size_t event_len);
uint8_t plain_work(uint8_t *record, size_t record_len, uint8_t *flash, size_t flash_len, uint32_t *left);
uint8_t plain_cut(uint8_t *record, size_t record_len, uint8_t *flash, size_t flash_len, const uint8_t *filler, size_t filler_len,
                  uint8_t through, uint8_t *event, size_t event_len);
size_t plain_next_message(const uint8_t *event, size_t event_len, const uint8_t *response, size_t response_len);
size_t plain_serial_bytes(void);
uint8_t plain_serial_fresh(uint8_t *reader, size_t reader_len);
uint8_t plain_serial(uint8_t *record, size_t record_len, uint8_t *flash, size_t flash_len, uint8_t *reader, size_t reader_len, uint8_t byte,
                     uint8_t *out, size_t out_len, uint8_t *sent, uint8_t *reason);

#endif
