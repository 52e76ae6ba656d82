permit(principal, action, resource) when {
            decimal("1.000000000000000000000000000000000000000000") &&
            ip("192.168.0.1").isInRange(ip("192.168.0.0/24"))
        };
