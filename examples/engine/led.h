/*
 * led.h: two transactions led step by step through what in a crowd comes about by chance: each end of a wait, and the
 * interleavings in which an update is lost, or a sum is wrong, if no lock is held.
 */
#ifndef LED_H
#define LED_H

#include "bank.h"

/* A wait that is granted, ones whose transaction is the victim of a cycle in one table and over two, ones whose record
 * moves and is deleted, and one that takes too long. Nothing else runs meanwhile. Fails if one ends otherwise. It
 * closes one account. */
void led_waits(struct bank *b);

/* Two payments to one account, each of which reads before the other writes, if it can. Fails where one of
 * them is lost. */
void led_payments(struct bank *b, bool skips_lock);

/* An audit, and a payment between two tables that begins after the audit has read the first. Fails if the accounts have
 * another sum than this, or the payment is not the victim of their deadlock. */
void led_audit(struct bank *b, uint64_t sum, bool skips_lock);

#endif
