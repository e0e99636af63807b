package com.example.accounts.of.a.deeper.folder;

import java.math.BigDecimal;
import java.util.LinkedHashMap;
import java.util.Map;
import java.util.Objects;

/** Plain classes as programs have them. */
public class Accounts {
    private final Map<String, Account> accounts = new LinkedHashMap<String, Account>();
    private int opened;

    public interface Listener {
        void changed(Account account, BigDecimal from, BigDecimal to);
    }

    public static class Account {
        private final String owner;
        private BigDecimal balance = BigDecimal.ZERO;
        private Listener[] listeners = {};

        public Account(String owner) {
            this.owner = Objects.requireNonNull(owner, "owner");
        }

        public BigDecimal balance() {
            return balance;
        }

        @Override
        public boolean equals(Object other) {
            return other instanceof Account && ((Account) other).owner.equals(owner);
        }

        @Override
        public int hashCode() {
            return owner.hashCode() * 31;
        }

        @Override
        public String toString() {
            return owner + ": " + balance;
        }
    }

    public static class Builder {
        private final Accounts made = new Accounts();

        public Builder with(String owner) {
            made.accounts.put(owner, new Account(owner));
            made.opened++;
            return this;
        }

        public Accounts build() {
            return made;
        }
    }

    public static class Overdrawn extends RuntimeException {
        public Overdrawn(String message) {
            super(message);
        }
    }

    public void move(String from, String to, BigDecimal amount) {
        Account source = accounts.get(from);
        if (source.balance.compareTo(amount) < 0) {
            throw new Overdrawn(from);
        }
        source.balance = source.balance.subtract(amount);
        Account target = accounts.get(to);
        target.balance = target.balance.add(amount);
        for (Listener listener : target.listeners) {
            listener.changed(target, target.balance.subtract(amount), target.balance);
        }
    }
}
