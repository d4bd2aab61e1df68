/** What a StringBuilder has of members that make, change and ask. */
class Built {
    public static void main(String[] args) {
        StringBuilder text = new StringBuilder();
        text.append("ab").append(12).append('c').append(true).append((String) null);
        System.out.println(text.append(new StringBuilder("de")).append((StringBuilder) null).toString());
        System.out.println(text.length() + " " + text.charAt(3) + text.indexOf("l") + text.lastIndexOf("l", 14));
        text.append("abcdef", 1, 3).append((CharSequence) text).setLength(20);
        System.out.println(text.append((CharSequence) null).toString());
        System.out.println(text.insert(0, "in").insert(4, 'x').insert(1, -7).insert(0, false).toString());
        System.out.println(text.insert(2, (String) null).insert(0, (CharSequence) "q").insert(1, "abcd", 1, 3).toString());
        System.out.println(text.delete(0, 9).deleteCharAt(0).replace(1, 3, "___").delete(20, 99).toString());
        text.setCharAt(0, 'Z');
        System.out.println(text.reverse().toString());
        System.out.println(text.substring(3).concat(text.substring(1, 3)) + text.subSequence(0, 2).length());
        System.out.println(text.indexOf("_", 16) + " " + text.lastIndexOf("_") + text.indexOf("", 99));
        System.out.println(new StringBuilder("a\ud83d\ude00b\ude00\ud83d").reverse().length());
        CharSequence all = new StringBuilder((CharSequence) "seven").append(new StringBuilder(9).length());
        System.out.println(all.charAt(5) + all.toString() + all.length());
        text.ensureCapacity(40);
        text.trimToSize();
        text.setLength(0);
        text.setLength(2);
        System.out.println(text.length() + text.charAt(1));
        text.append(text).append(text);
        System.out.println(text.length() + (text.equals(text) ? 1 : 0));
    }
}
