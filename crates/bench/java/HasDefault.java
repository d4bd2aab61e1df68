// refused 2 OutsideProfile file 1 method one()I
/** A method of an interface has code. */
interface WithDefault {
    default int one() {
        return 1;
    }
}

final class HasDefault implements WithDefault {
    public static void main(String[] args) {
    }
}
