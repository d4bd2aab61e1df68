/*
 * The library: properties and the environment
 *
 * SystemProperties.java:11: java.lang.System.getProperty(java.lang.String): System has out, err, arraycopy,
 *     identityHashCode and lineSeparator; leave it out
 * SystemProperties.java:12: java.lang.System.getenv(java.lang.String): System has out, err, arraycopy, identityHashCode
 *     and lineSeparator; leave it out
 */
class SystemProperties {
    public static void main(String[] words) {
        String home = System.getProperty("user.home");
        String path = System.getenv("PATH");
    }
}
