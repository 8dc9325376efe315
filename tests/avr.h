/* An AVR in a simulator: printing goes to its serial port, and sleeping with interrupts off ends the run. */
#ifndef AVR_H
#define AVR_H

#include <avr/interrupt.h>
#include <avr/io.h>
#include <avr/sleep.h>
#include <stdio.h>

static int put_letter(char letter, FILE *stream)
{
    (void)stream;
    while ((UCSR0A & (1 << UDRE0)) == 0)
        ;
    UDR0 = (uint8_t)letter;
    return 0;
}

static FILE serial = FDEV_SETUP_STREAM(put_letter, NULL, _FDEV_SETUP_WRITE);

static void begin(void)
{
    UCSR0B = (uint8_t)(1 << TXEN0);
    stdout = &serial;
}

static void end(void)
{
    cli();
    sleep_enable();
    sleep_cpu();
}

#endif
