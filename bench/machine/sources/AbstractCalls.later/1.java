class AcB extends AcA {}
