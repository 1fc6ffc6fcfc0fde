"""What is seen of an office: its log as sentences, its measures.

The words `trace` and `measures` call this; alarms stand on the measures (deploy/alarms)."""
