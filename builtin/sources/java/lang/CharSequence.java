package java.lang;

/** What has chars one after another. */
public interface CharSequence {
    int length();

    char charAt(int index);

    CharSequence subSequence(int begin, int end);

    String toString();
}
