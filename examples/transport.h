/* What the updater asks of the machine around it. On a product: the mailbox (IPCC and its shared table), the option bytes, the flash driver
   and a timer. At the bench: bench.c. */
#ifndef TRANSPORT_H
#define TRANSPORT_H

#include <stdbool.h>
#include <stddef.h>
#include <stdint.h>

/* Hands a command packet to the device. */
void transport_send(const uint8_t *packet, size_t length);

/* Reads the mailbox's first bytes, whatever stands there. */
void transport_receive(uint8_t *bytes, size_t length);

/* Reads the 6 bytes of the event that came since the last time; false: none came. */
bool transport_event(uint8_t *event);

/* The first sector of the secure area: SFSA of the option bytes. */
uint32_t transport_boundary(void);

/* Erases the sectors from this address on and writes these bytes; false: it may not be written there. */
bool transport_write(uint32_t address, const uint8_t *bytes, size_t length);

/* Lets the device do its work for a moment. */
void transport_wait(void);

#endif
