"""The parts of against-etcd: a tenant's lines asked of a real etcd."""
