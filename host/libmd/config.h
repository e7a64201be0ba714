/* libmd's sha2.c as it is in version 1.0.4: here it needs nothing from its configuration. */
