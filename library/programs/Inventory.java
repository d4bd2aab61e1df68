import java.util.HashMap;
import java.util.Map;

/** A shop counts what is in stock, by names, and refuses what it doesn't have. */
class Inventory {
    static class OutOfStockException extends RuntimeException {
        OutOfStockException(String item, int wanted, int there) {
            super("wanted " + wanted + " of " + item + ", there are " + there);
        }
    }

    private final Map<String, Integer> stock = new HashMap<String, Integer>();

    void add(String item, int count) {
        stock.put(item, stock.getOrDefault(item, 0) + count);
    }

    void take(String item, int count) {
        int there = stock.getOrDefault(item, 0);
        if (there < count) {
            throw new OutOfStockException(item, count, there);
        }
        if (there == count) {
            stock.remove(item);
        } else {
            stock.put(item, there - count);
        }
    }

    public static void main(String[] args) {
        Inventory shop = new Inventory();
        String delivery = "apple 5,pear 7,plum 12,apple 3,cherry 40,fig 2";
        int begin = 0;
        while (begin < delivery.length()) {
            int end = delivery.indexOf(',', begin);
            end = end < 0 ? delivery.length() : end;
            String entry = delivery.substring(begin, end);
            int space = entry.indexOf(' ');
            shop.add(entry.substring(0, space), Integer.parseInt(entry.substring(space + 1)));
            begin = end + 1;
        }
        System.out.println(shop.stock);
        shop.take("apple", 6);
        shop.take("fig", 2);
        try {
            shop.take("pear", 8);
        } catch (OutOfStockException refused) {
            System.out.println("refused: " + refused.getMessage());
        }
        for (Map.Entry<String, Integer> entry : shop.stock.entrySet()) {
            System.out.println(entry.getKey() + ": " + entry.getValue());
        }
        System.out.println("fig" + (shop.stock.containsKey("fig") ? " is there" : " is sold out"));
    }
}
