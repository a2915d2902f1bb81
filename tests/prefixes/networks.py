"""Tables of networks, and what `prefixes route --cidr` answers of them, by Python's `ipaddress`."""
import ipaddress

LINES = 5000


def address(chosen, version, near=()):
    """An address: at random, or one of these with some of its last bits at random."""
    width = 32 if version == 4 else 128
    number = chosen.getrandbits(width)
    if near and chosen.random() < 0.8:
        kept = chosen.randint(0, width)
        number = int(chosen.choice(near)) >> width - kept << width - kept | number & (1 << width - kept) - 1
    return (ipaddress.IPv4Address if version == 4 else ipaddress.IPv6Address)(number)


def written(chosen, one):
    """A text of an address."""
    return chosen.choice([str, str, lambda one: one.exploded.upper()])(one)


def rows(chosen, count):
    """So many networks with their targets, many of which are in one another, or have bits after their length."""
    made, found = {4: [], 6: []}, []
    for number in range(count):
        version = chosen.choice([4, 6])
        one = address(chosen, version, made[version])
        made[version].append(one)
        length = chosen.randint(0, one.max_prefixlen)
        found.append((written(chosen, one) + chosen.choice(['/%d' % length] * 6 + ['/%03d' % length, '']), str(number)))
    return found


def addresses(chosen, of):
    """Addresses, many of which are in networks."""
    near = [ipaddress.ip_address(name.partition('/')[0]) for name, _ in of]
    versions = [chosen.choice([4, 6]) for _ in range(LINES)]
    return [written(chosen, address(chosen, version, [one for one in near[:200] if one.version == version]))
            for version in versions]


def network_key(one, length):
    """An address without the bits after a length, with that length and its version."""
    rest = one.max_prefixlen - length
    return one.version, length, int(one) >> rest << rest


def table(of):
    """The rows of a table by their networks. The later of two of one network stays."""
    found = ((ipaddress.ip_network(row[0], strict=False), row) for row in of)
    return {network_key(network.network_address, network.prefixlen): row for network, row in found}


def answer(networks, line):
    """The answer of `route --cidr`: each network of the address is looked up, the longest first."""
    one = ipaddress.ip_address(line)
    keys = (network_key(one, length) for length in range(one.max_prefixlen, -1, -1))
    return next(('%s\t%s\n' % networks[key] for key in keys if key in networks), '-\n')
