/*
 * Newer than Java 8: modules
 *
 * javac refuses it.
 */
module bank {
}
