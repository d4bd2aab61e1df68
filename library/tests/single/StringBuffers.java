/** StringBuffer: what it makes of texts. */
class StringBuffers {
    public static void main(String[] args) {
        StringBuffer buffer = new StringBuffer("ab");
        buffer.append(1).append('c').append(true).append((Object) null).append((String) null).append("xyz");
        System.out.println(buffer);
        System.out.println(buffer.length() + " " + buffer.charAt(2) + " " + buffer.indexOf("c") + " "
                + buffer.lastIndexOf("l") + " " + buffer.indexOf("l", 12) + " " + buffer.lastIndexOf("l", 12));
        buffer.insert(0, 7).insert(1, '-').insert(2, false).insert(0, (Object) "o").insert(3, "p");
        System.out.println(buffer);
        buffer.delete(0, 5).deleteCharAt(0).replace(1, 3, "REPLACED").setCharAt(0, '*');
        System.out.println(buffer);
        System.out.println(buffer.substring(3) + "," + buffer.substring(3, 5) + "," + buffer.subSequence(0, 2));
        buffer.setLength(4);
        System.out.println(buffer.reverse());
        buffer.append(new StringBuffer("more")).append(new StringBuilder("and")).append("abcdef", 2, 4);
        buffer.append(new char[] {'u', 'v'}).append(new char[] {'1', '2', '3'}, 1, 2);
        System.out.println(buffer.toString() + new StringBuffer(7).length() + new StringBuffer((CharSequence) "s"));
        try {
            buffer.insert(100, "x");
        } catch (StringIndexOutOfBoundsException failed) {
            System.out.println("too far");
        }
        try {
            buffer.deleteCharAt(-1);
        } catch (StringIndexOutOfBoundsException failed) {
            System.out.println("too low");
        }
        System.out.println("ab".contentEquals((CharSequence) new StringBuffer("ab")) + " " + buffer.equals(buffer));
    }
}
