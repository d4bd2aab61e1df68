/** A StringBuilder is asked for what it has not: each fault is told by a letter, and the text stays. */
class Beyond {
    static void ask(StringBuilder text, int what) {
        switch (what) {
            case 0: text.charAt(4); break;
            case 1: text.charAt(-1); break;
            case 2: text.setCharAt(4, 'x'); break;
            case 3: text.deleteCharAt(-1); break;
            case 4: text.delete(5, 6); break;
            case 5: text.delete(3, 2); break;
            case 6: text.replace(-1, 2, "x"); break;
            case 7: text.insert(5, "x"); break;
            case 8: text.insert(-1, 7); break;
            case 9: text.setLength(-1); break;
            case 10: text.substring(5); break;
            case 11: text.substring(2, 1); break;
            case 12: text.append("abc", 2, 4); break;
            case 13: text.append("abc", -1, 2); break;
            case 14: text.insert(9, "abc", 0, 1); break;
            case 15: new StringBuilder(-1); break;
            case 16: new StringBuilder((String) null); break;
            case 17: new StringBuilder((CharSequence) null); break;
            case 18: text.replace(1, 2, null); break;
            case 19: text.indexOf(null); break;
            case 20: ((StringBuilder) null).append(7); break;
            default: text.delete(1, 99); break;
        }
    }

    public static void main(String[] args) {
        StringBuilder text = new StringBuilder("four");
        for (int what = 0; what < 22; what++) {
            char letter = '-';
            try {
                ask(text, what);
            } catch (IndexOutOfBoundsException outside) {
                letter = 'i';
            } catch (NullPointerException isNull) {
                letter = 'n';
            } catch (NegativeArraySizeException negative) {
                letter = 's';
            }
            System.out.print(letter);
        }
        System.out.println(text.toString());
    }
}
