"""What identifiers are called that are the same everywhere, or that have one number in each domain."""

WELL_KNOWN = {
    "S-1-0-0": "nobody", "S-1-1-0": "everyone", "S-1-3-0": "creator owner", "S-1-3-1": "creator group",
    "S-1-3-4": "owner rights", "S-1-5-2": "network", "S-1-5-4": "interactive", "S-1-5-6": "service",
    "S-1-5-7": "anonymous", "S-1-5-9": "enterprise domain controllers", "S-1-5-10": "the object itself",
    "S-1-5-11": "authenticated users", "S-1-5-12": "restricted code", "S-1-5-18": "the system",
    "S-1-5-19": "local service", "S-1-5-20": "network service",
} | {f"S-1-5-32-{number}": name for number, name in {
    544: "administrators", 545: "users", 546: "guests", 547: "power users", 548: "account operators",
    549: "server operators", 550: "print operators", 551: "backup operators", 552: "replicator",
    554: "pre-Windows 2000 access", 555: "remote desktop users", 556: "network configuration operators",
    557: "forest trust builders", 560: "authorization access group", 561: "terminal server licence servers"}.items()}
OF_DOMAIN = {498: "read-only controllers of the enterprise", 500: "administrator", 501: "guest", 502: "krbtgt",
             512: "domain admins", 513: "domain users", 514: "domain guests", 515: "domain computers",
             516: "domain controllers", 517: "certificate publishers", 518: "schema admins", 519: "enterprise admins",
             520: "policy creators", 521: "read-only controllers", 522: "cloneable controllers",
             526: "key admins", 527: "enterprise key admins", 553: "RAS servers"}
